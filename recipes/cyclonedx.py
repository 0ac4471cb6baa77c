#!/usr/bin/env python3
"""Makes a software bill of materials after CycloneDX 1.5 of JSON Lines of packages, as docs/RECIPES.md shows.

    .. | recipes/rows.py DBINSTANCE NAME EPOCH VERSION RELEASE ARCH LICENSE VENDOR SUMMARY URL SOURCERPM | recipes/cyclonedx.py SYSTEM VENDOR

SYSTEM names what the packages are of, and VENDOR is the namespace of package URLs, as `opensuse`. The same input gives the same bytes: there is
neither a time nor a random number. Packages have no digests of files, and no dependencies. It takes no time to speak of; needs Python 3 alone.
"""
import json
import sys
from urllib.parse import quote


def purl(tags, vendor):
    """The package URL of a package."""
    more = [f"{key}={quote(str(tags[tag]), safe='')}" for key, tag in (("arch", "ARCH"), ("epoch", "EPOCH")) if tags[tag] is not None]
    place = "/".join(quote(it, safe="") for it in ("rpm", vendor, tags["NAME"]))
    version = quote(f"{tags['VERSION']}-{tags['RELEASE']}", safe="")
    return f"pkg:{place}@{version}" + ("?" + "&".join(more) if more else "")


def component(tags, vendor):
    """A package as a component."""
    epoch = "" if tags["EPOCH"] is None else f"{tags['EPOCH']}:"
    made = {
        "type": "library", "bom-ref": f"package-{tags['DBINSTANCE']}", "name": tags["NAME"],
        "version": f"{epoch}{tags['VERSION']}-{tags['RELEASE']}", "purl": purl(tags, vendor)}
    if tags["LICENSE"]:
        made["licenses"] = [{"license": {"name": tags["LICENSE"]}}]
    if tags["VENDOR"]:
        made["publisher"] = tags["VENDOR"]
    if tags["SUMMARY"]:
        made["description"] = tags["SUMMARY"]
    if tags["URL"]:
        made["externalReferences"] = [{"type": "website", "url": tags["URL"]}]
    if tags["SOURCERPM"]:
        made["properties"] = [{"name": "rpm:sourcerpm", "value": tags["SOURCERPM"]}]
    return made


def main():
    if len(sys.argv) != 3:
        sys.exit(print(__doc__) if sys.argv[1:] == ["--help"] else __doc__)
    system, vendor = sys.argv[1:]
    json.dump({
        "bomFormat": "CycloneDX", "specVersion": "1.5", "version": 1,
        "metadata": {"component": {"type": "operating-system", "bom-ref": "system", "name": system}},
        "components": [component(json.loads(line), vendor) for line in sys.stdin]}, sys.stdout, indent=1)
    print()


if __name__ == "__main__":
    main()
