"""The wheel of `clru.py`: what `pip install` takes, with the library in it.

The same files, version and time give the same bytes.
"""
import base64
import hashlib
import io
import time
import zipfile

# The library is linked to glibc alone, from this version on.
TAG = "py3-none-manylinux_2_34_x86_64"
METADATA = """Metadata-Version: 2.1
Name: clru
Version: {version}
Summary: The proved numbers of an LRU cache at each capacity, from the requests in order
Requires-Python: >=3.8
Provides-Extra: numpy
Requires-Dist: numpy; extra == "numpy"
"""
WHEEL = """Wheel-Version: 1.0
Generator: clru
Root-Is-Purelib: false
Tag: {tag}
"""


def sum_of(data):
    """The checksum of a file as RECORD has it."""
    return "sha256=" + base64.urlsafe_b64encode(hashlib.sha256(data).digest()).decode().rstrip("=")


def wheel(version, seconds, module, library, license_text):
    """The name of the wheel and its bytes. A version that is not released is a `.dev0` of it."""
    base, unreleased, _ = version.partition("-unreleased")
    release, _, local = base.partition("+")
    version = f"{release}.dev0+{local}" if unreleased else base
    info = f"clru-{version}.dist-info"
    files = {
        "clru/__init__.py": module,
        "clru/lib/libclru.so": library,
        f"{info}/METADATA": METADATA.format(version=version).encode(),
        f"{info}/WHEEL": WHEEL.format(tag=TAG).encode(),
        f"{info}/LICENSE": license_text,
    }
    record = [f"{path},{sum_of(data)},{len(data)}" for path, data in files.items()]
    files[f"{info}/RECORD"] = "\n".join([*record, f"{info}/RECORD,,", ""]).encode()
    # A zip has no time before 1980.
    day = time.gmtime(max(seconds, 315532800))[:6]
    out = io.BytesIO()
    with zipfile.ZipFile(out, "w", zipfile.ZIP_DEFLATED) as archive:
        for path, data in files.items():
            entry = zipfile.ZipInfo(path, day)
            entry.external_attr, entry.compress_type = (0o100755 if path.endswith(".so") else 0o100644) << 16, zipfile.ZIP_DEFLATED
            archive.writestr(entry, data)
    return f"clru-{version}-{TAG}.whl", out.getvalue()
