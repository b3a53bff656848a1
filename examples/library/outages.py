"""Lists what each failure of a link or of a router does: python3 outages.py DUMP [NAMES]"""
import sys

from ospf_plan import Database, Study


def main() -> None:
    database = Database.load(*sys.argv[1:3])
    print("  lost  dearer  line")
    for outage in sorted(Study(database).sweep(), key=lambda outage: (-outage.lost, -outage.dearer)):
        print(f"{outage.lost:6}  {outage.dearer:6}  {outage.line}")


if __name__ == "__main__":
    main()
