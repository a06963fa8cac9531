"""Every public function has a contract that relies on no caller: an `ensures`, no `requires`, and no `ghost`, whose type can stand for one."""
import os

from source import Unreadable, enter, finish, source


def faults_of(crate):
    """The public functions of a crate with a contract that won't do, and how many there are."""
    try:
        public = [function for function in source(crate).functions if function.public]
    except Unreadable as error:
        return [f"{error}"], 0
    faults = []
    for function in public:
        kinds = [kind for kind, _ in function.clauses]
        faults += [f"{function.file}: {function.path} has no ensures"] if "ensures" not in kinds else []
        faults += [f"{function.file}: {function.path} has a {kind}" for kind in ("requires", "ghost") if kind in kinds]
    return faults, len(public)


def main():
    enter()
    found = [faults_of(crate) for crate in sorted(os.listdir("crates"))]
    finish([fault for faults, _ in found for fault in faults], f"{sum(count for _, count in found)} public functions with contracts")


if __name__ == "__main__":
    main()
