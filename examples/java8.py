#!/usr/bin/env python3
"""Makes a JAR of the classes of Java 8 that a JDK keeps for `javac --release 8`, with the version of Java 8: java8.py JDK/lib/ct.sym OUT.jar"""

import sys
import zipfile

with zipfile.ZipFile(sys.argv[1]) as api, zipfile.ZipFile(sys.argv[2], "w") as jar:
    for name in api.namelist():
        releases, module, path = (name.split("/", 2) + ["", ""])[:3]
        if "8" in releases and module == "java.base" and path.endswith(".sig"):
            data = api.read(name)
            jar.writestr(path[:-4] + ".class", data[:4] + bytes([0, 0, 0, 52]) + data[8:])
