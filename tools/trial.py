"""A check tried on spoilt copies of what it reads, for the `--try` of tools/header, tools/looks, tools/names, tools/packages, tools/pages, tools/promises,
tools/stack and tools/statements."""


def run(tree, faults_of, copies):
    """`copies` are (what is wrong, the spoilt copy, a part of the fault that the check must report). The tree itself must have no fault. Prints a line for each
    copy and the sum; returns the exit status."""
    unspoilt = faults_of(tree)
    passed, failed = (0, len(unspoilt)) if unspoilt else (1, 0)
    for fault in unspoilt:
        print(f"unspoilt: {fault}")
    for what, copy, why in copies:
        seen = [fault for fault in faults_of(copy) if why in fault]
        print(f"{what}: " + (seen[0][:200] if seen else "NOT NOTICED" if copy != tree else "COULD NOT BE MADE"))
        passed, failed = (passed + 1, failed) if seen else (passed, failed + 1)
    print(f"{passed} passed, {failed} failed")
    return 1 if failed else 0
