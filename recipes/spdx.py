#!/usr/bin/env python3
"""Makes a software bill of materials after SPDX 2.3 of JSON Lines of packages, as docs/RECIPES.md shows.

    .. | recipes/rows.py DBINSTANCE NAME EPOCH VERSION RELEASE ARCH LICENSE VENDOR SUMMARY URL SOURCERPM | recipes/spdx.py SYSTEM VENDOR

SYSTEM names what the packages are of, and VENDOR is the namespace of package URLs, as `opensuse`. The time of the document is SOURCE_DATE_EPOCH
where that is set, so that the same input gives the same bytes, and else now. A package's licence is a text of its packager and stands as a comment.
It takes no time to speak of; needs Python 3 alone.
"""
import hashlib
import json
import os
import sys
import time

sys.dont_write_bytecode = True
from cyclonedx import purl


def package(tags, vendor):
    """A package as SPDX has it."""
    made = {
        "SPDXID": f"SPDXRef-package-{tags['DBINSTANCE']}", "name": tags["NAME"], "versionInfo": f"{tags['VERSION']}-{tags['RELEASE']}",
        "downloadLocation": "NOASSERTION", "filesAnalyzed": False, "licenseConcluded": "NOASSERTION", "licenseDeclared": "NOASSERTION",
        "copyrightText": "NOASSERTION", "supplier": f"Organization: {tags['VENDOR']}" if tags["VENDOR"] else "NOASSERTION",
        "externalRefs": [{"referenceCategory": "PACKAGE-MANAGER", "referenceType": "purl", "referenceLocator": purl(tags, vendor)}]}
    for key, tag in (("licenseComments", "LICENSE"), ("summary", "SUMMARY"), ("homepage", "URL"), ("sourceInfo", "SOURCERPM")):
        if tags[tag]:
            made[key] = tags[tag]
    return made


def main():
    if len(sys.argv) != 3:
        sys.exit(print(__doc__) if sys.argv[1:] == ["--help"] else __doc__)
    system, vendor = sys.argv[1:]
    text = sys.stdin.read()
    packages = [package(json.loads(line), vendor) for line in text.splitlines()]
    moment = time.gmtime(int(os.environ.get("SOURCE_DATE_EPOCH", time.time())))
    json.dump({
        "spdxVersion": "SPDX-2.3", "dataLicense": "CC0-1.0", "SPDXID": "SPDXRef-DOCUMENT", "name": system,
        "documentNamespace": f"https://spdx.example.org/{hashlib.sha256(text.encode()).hexdigest()}",
        "creationInfo": {"created": time.strftime("%Y-%m-%dT%H:%M:%SZ", moment), "creators": ["Tool: juzkarg-recipes"]},
        "packages": packages,
        "relationships": [{"spdxElementId": "SPDXRef-DOCUMENT", "relationshipType": "DESCRIBES", "relatedSpdxElement": it["SPDXID"]} for it in packages],
    }, sys.stdout, indent=1)
    print()


main()
