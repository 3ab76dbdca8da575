"""Packages of a folder of files as tools/package makes it: a .tar.gz, a package for Debian and a wheel, each with the same bytes
wherever it is made of the same files."""
import gzip
import hashlib
import os
import re
import subprocess
import sys
import tarfile
import zipfile

TOP = os.path.dirname(os.path.dirname(os.path.realpath(__file__)))
MAINTAINER = "Varpsilt maintainers <maintainers@users.noreply.varpsilt.example>"
TRIPLET = "x86_64-linux-gnu"
# Where Debian wants what stands elsewhere below /usr/local.
DEBIAN_PLACES = {"PREFIX": "/usr", "LIBDIR": f"/usr/lib/{TRIPLET}", "ZSHDIR": "/usr/share/zsh/vendor-completions"}
ABOUT = """cron expressions and crontabs, with proved answers
 crontool lists when cron expressions and crontabs fire in a time zone, tells
 what was missed, compares and explains them, and runs a crontab. The library
 libcron_c gives the same answers to C. Both are proved against definitions of
 what an expression means and how a zone's clock goes.
 .
"""
COPYRIGHT = """Format: https://www.debian.org/doc/packaging-manuals/copyright-format/1.0/

Files: *
Copyright: 2015 Zack Slayton
 2026 Varpsilt maintainers
License: MIT or Apache-2.0

License: MIT
{}

License: Apache-2.0
 On Debian systems the text of this licence is the file
 /usr/share/common-licenses/Apache-2.0.
"""


def read(path):
    with open(path, "rb") as it:
        return it.read()


def write(path, text, mode=0o644):
    os.makedirs(os.path.dirname(path), exist_ok=True)
    with open(path, "wb") as it:
        it.write(text if isinstance(text, bytes) else text.encode())
    os.chmod(path, mode)


def paths_below(folder):
    """All files, links and folders below a folder, by their paths in it."""
    found = [os.path.join(at, it) for at, folders, files in os.walk(folder) for it in folders + files]
    return sorted(os.path.relpath(it, folder) for it in found)


def take_away(folder):
    """Takes away what an earlier run made in a folder, as the sums there name it."""
    if os.path.exists(f"{folder}/SHA256SUMS"):
        for line in read(f"{folder}/SHA256SUMS").decode().splitlines():
            path = f"{folder}/{os.path.basename(line.split()[-1])}"
            if os.path.exists(path):
                os.remove(path)


def write_sums(folder, names):
    """Notes the sums of these files beside them."""
    write(f"{folder}/SHA256SUMS", "".join(f"{hashlib.sha256(read(f'{folder}/{it}')).hexdigest()}  {it}\n" for it in names))


def least_libc(*paths):
    """The two numbers of the least C library that has all that these files need."""
    said = subprocess.run(["readelf", "--version-info", "--wide", *paths], check=True, capture_output=True, text=True).stdout
    return max((int(major), int(minor)) for major, minor in re.findall(r"GLIBC_(\d+)\.(\d+)", said))


# ---- the .tar.gz


def told_alike(source):
    """What a .tar.gz says of each file: the time of the commit, and no user."""

    def change(it):
        it.mtime, it.uid, it.gid, it.uname, it.gname = source.epoch, 0, 0, "", ""
        it.mode = 0o755 if it.isdir() or it.mode & 0o100 else 0o644
        return it

    return change


def tarball(source, tree, folder):
    """Writes the .tar.gz of a folder, and returns its name."""
    base = os.path.basename(tree)
    with open(f"{folder}/{base}.tar.gz", "wb") as to, gzip.GzipFile("", "wb", 9, to, source.epoch) as packed:
        with tarfile.open(fileobj=packed, mode="w", format=tarfile.GNU_FORMAT) as files:
            for it in ["", *paths_below(tree)]:
                files.add(f"{tree}/{it}", f"{base}/{it}".rstrip("/"), recursive=False, filter=told_alike(source))
    return f"{base}.tar.gz"


# ---- the wheel


def wheel(source, tree, folder):
    """Writes the wheel, with the library of the folder, and returns its name."""
    sys.path.insert(0, f"{TOP}/python/backend")
    import wheels

    library = f"{tree}/lib/lib{wheels.NAME}.so"
    # There is no tag of an older C library.
    major, minor = max(least_libc(library), (2, 5))
    tag = f"py3-none-manylinux_{major}_{minor}_x86_64"
    about = f"{wheels.NAME}-{wheels.VERSION}.dist-info"
    sources = sorted(wheels.PACKAGE.glob("*.py")) + [wheels.PACKAGE / "py.typed"]
    held = {f"{wheels.NAME}/{it.name}": it.read_bytes() for it in sources}
    held |= {f"{wheels.NAME}/lib{wheels.NAME}.so": read(library), **wheels.information(), f"{about}/ORIGIN": source.origin().encode()}
    held[f"{about}/WHEEL"] = held[f"{about}/WHEEL"].replace(wheels.TAG.encode(), tag.encode())
    path, lines = wheels.record(held)
    name = f"{wheels.NAME}-{wheels.VERSION}-{tag}.whl"
    with zipfile.ZipFile(f"{folder}/{name}", "w", zipfile.ZIP_DEFLATED) as packed:
        for inside, data in {**held, path: lines}.items():
            entry = zipfile.ZipInfo(inside, tuple(map(int, source.day("%Y %m %d %H %M %S").split())))
            entry.external_attr, entry.compress_type = 0o100644 << 16, zipfile.ZIP_DEFLATED
            packed.writestr(entry, data)
    return name


# ---- the package for Debian


def indented(text):
    return "\n".join(f" {line or '.'}" for line in text.strip().splitlines())


def documents(source):
    """What stands in the package's folder of documents in place of the licences, as Debian wants it."""
    licence = read(f"{TOP}/LICENSE-MIT").decode()
    day = source.day("%a, %d %b %Y %H:%M:%S +0000")
    log = f"varpsilt ({source.version}) unstable; urgency=medium\n\n  * CHANGELOG.md beside this file has the changes.\n\n"
    return {
        "copyright": COPYRIGHT.format(indented(licence)).encode(),
        "changelog.gz": gzip.compress(f"{log} -- {MAINTAINER}  {day}\n".encode(), 9, mtime=0),
    }


def control(source, root):
    """The files by which Debian knows the package."""
    files = [it for it in paths_below(root) if os.path.isfile(f"{root}/{it}") and not os.path.islink(f"{root}/{it}")]
    kilobytes = sum(-(-os.path.getsize(f"{root}/{it}") // 1024) if it in files else 1 for it in paths_below(root))
    library = f"{root}/usr/lib/{TRIPLET}/{source.soname}"
    libc = ".".join(map(str, least_libc(f"{root}/usr/bin/crontool", library)))
    name, _, number = source.soname.partition(".so.")
    about = {
        "Package": "varpsilt",
        "Version": source.version,
        "Architecture": "amd64",
        "Maintainer": MAINTAINER,
        "Installed-Size": kilobytes,
        "Depends": f"libc6 (>= {libc})",
        "Recommends": "tzdata",
        "Section": "utils",
        "Priority": "optional",
        "Description": ABOUT + indented(source.origin().partition("\n")[2]),
    }
    return {
        "control": "".join(f"{key}: {value}\n" for key, value in about.items()),
        "md5sums": "".join(f"{hashlib.md5(read(f'{root}/{it}')).hexdigest()}  {it}\n" for it in files),
        "shlibs": f"{name} {number} varpsilt (>= {source.version})\n",
        "triggers": "activate-noawait ldconfig\n",
    }


def debian(source, tree, folder, room):
    """Writes the package for Debian, and returns its name."""
    root, name = f"{room}/debian", f"varpsilt_{source.version}_amd64.deb"
    places = [f"{it}={to}" for it, to in DEBIAN_PLACES.items()]
    subprocess.run(["make", "-s", "-C", tree, "install", f"DESTDIR={root}", *places], check=True)
    for it in ("LICENSE-APACHE", "LICENSE-MIT"):
        os.remove(f"{root}/usr/share/doc/varpsilt/{it}")
    for it, text in documents(source).items():
        write(f"{root}/usr/share/doc/varpsilt/{it}", text)
    for it in ("man1/crontool.1", "man3/cron_c.3"):
        path = f"{root}/usr/share/man/{it}"
        write(f"{path}.gz", gzip.compress(read(path), 9, mtime=0))
        os.remove(path)
    for it, text in control(source, root).items():
        write(f"{root}/DEBIAN/{it}", text)
    for it in ["", *paths_below(root)]:
        if os.path.isdir(f"{root}/{it}"):
            os.chmod(f"{root}/{it}", 0o755)
        os.utime(f"{root}/{it}", (source.epoch, source.epoch), follow_symlinks=False)
    how = {"env": {**os.environ, "SOURCE_DATE_EPOCH": str(source.epoch)}, "stdout": subprocess.DEVNULL, "check": True}
    # By one thread, since more of them split what they pack.
    subprocess.run(["dpkg-deb", "--root-owner-group", "-Zxz", "--threads-max=1", "--build", root, f"{folder}/{name}"], **how)
    return name
