"""Reads the text of a schema with an installed GraphQL library, as a check from outside that it is GraphQL.

    python3 .ci/sdl.py < SDL                   the text on standard input
    python3 .ci/sdl.py PROGRAM SCRIPT..        what `PROGRAM schema SCRIPT` writes, for each script

Prints what the library finds wrong, and each script that has no schema, and then ends with status 1. Where no library is
installed, it says so and passes.
"""

import subprocess
import sys

try:
    from graphql import build_schema, print_schema, validate_schema
except ImportError:
    print("sdl: no graphql library is installed, so no text was read")
    sys.exit(0)


def faults_of(text):
    """What is wrong with a text, as lines."""
    if not text.endswith("}\n") or text.endswith("\n\n"):
        return ["the text doesn't end with a type and one line feed"]
    try:
        schema = build_schema(text)
    except Exception as error:  # a library's own error types change from version to version
        return [f"it is not read: {error}"]
    faults = [str(error) for error in validate_schema(schema)]
    if sorted(definitions(text)) != sorted(definitions(print_schema(schema))):
        faults.append("the library prints other definitions than it read")
    return faults


def definitions(text):
    """The definitions of a text, without the empty lines between them."""
    return [part.strip() for part in text.split("\n\n") if part.strip()]


def written(script):
    """What is wrong with what the program writes for a script, as lines."""
    run = subprocess.run([sys.argv[1], "schema", script], capture_output=True, check=False)
    if run.returncode != 0:
        return [f"no schema: {run.stdout.decode().strip()}"]
    return faults_of(run.stdout.decode())


def main():
    if len(sys.argv) == 1:
        faults = [("standard input", fault) for fault in faults_of(sys.stdin.read())]
    else:
        faults = [(script, fault) for script in sys.argv[2:] for fault in written(script)]
    for name, fault in faults:
        print(f"sdl: {name}: {fault}")
    return 1 if faults else 0


sys.exit(main())
