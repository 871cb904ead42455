"""Any number of parts as one solid, from files: python3 join_parts.py OUT.stl PART.stl .."""
import sys

import ember


def main():
    out, *parts = sys.argv[1:]
    for part, found in zip(parts, ember.info(*parts)):
        print(f"{part}: {found['triangles']} triangles, volume {found['volume']}")
    try:
        whole = ember.union(*parts)
    except ember.NotClosedError as error:
        sys.exit(f"{parts[error.mesh]} has a hole at {error.edge}")
    except ember.EmberError as error:
        sys.exit(f"no result: {error}")
    whole.export(out)
    print(f"{out}: {len(whole.faces)} triangles, on a grid with a step of {whole.step}")


main()
