#!/usr/bin/env bash
# Fetches real class files into the folder DIR: DIR/classes has those of version 52 or less in some Debian packages, and
# DIR/made, where javac is there, what javac --release 8 makes of sources with most kinds of instructions.
# Usage: bench/real_classes.sh DIR
set -eu
cd "$1"
packages="libcommons-lang3-java libguava-java libxerces2-java libbcprov-java libtomcat9-java"
apt-get download $packages >/dev/null || { echo "apt-get knows no place for $packages: apt-get update helps" >&2; exit 1; }
for package in *.deb; do dpkg -x "$package" unpacked; done
python3 - <<'P'
# Class files of version 52 or less, each once; an archive may have the same class for several versions.
import os, zipfile
os.makedirs("classes")
count = 0
for folder, _, names in os.walk("unpacked"):
    for name in names:
        path = os.path.join(folder, name)
        if not name.endswith(".jar") or os.path.islink(path):
            continue
        with zipfile.ZipFile(path) as archive:
            for entry in archive.namelist():
                if entry.endswith(".class"):
                    content = archive.read(entry)
                    if content[6] * 256 + content[7] <= 52:
                        with open(f"classes/{count:06}.class", "wb") as out:
                            out.write(content)
                        count += 1
P
if command -v javac >/dev/null; then
    mkdir java
    cat >java/Shapes.java <<'J'
import java.util.function.Supplier;
public class Shapes implements Runnable {
    static final String NAME = "shapes"; static final long BIG = 1L << 40; final double half = 0.5; int[][] grid = new int[3][4];
    interface Named { String name(); default String twice() { return name() + name(); } }
    enum Colour { RED, GREEN { int weight() { return 2; } }; int weight() { return 1; } }
    static int pick(String s) { switch (s) { case "a": return 1; case "b": return 2; default: return 3; } }
    static int dense(int i) { switch (i) { case 1: return 4; case 2: return 5; case 3: return 6; default: return 0; } }
    static int sparse(int i) { switch (i) { case 1: return 4; case 1000: return 5; case 100000: return 6; default: return 0; } }
    public void run() { try { synchronized (this) { grid[1][2]++; } } catch (RuntimeException e) { throw new IllegalStateException(e); } finally { System.out.println(NAME + BIG + half); } }
    double mix(long a, float b, double c, byte d, char e, short f) { long x = a * 3 + (long) b; return x / c - d % (e + 1.0f) + (f >>> 2) + (x ^ a) + (int) c + (a << 3); }
    Named named() { return new Named() { public String name() { return NAME; } }; }
    int wide() { int a0=0,a1=1,a2=2,a3=3,a4=4; long t=0; for (int i = 0; i < 1000; i++) { t += i; a4 += 300; } return (int) t + a0 + a1 + a2 + a3 + a4; }
    Object cast(Object o) { return o instanceof String ? (String) o : new long[][] { { 1L }, { 2L } }; }
}
J
    cat >java/Lambda.java <<'J'
public class Lambda { Runnable r() { return () -> System.out.println("indy"); } }
J
    mkdir made && javac --release 8 -Xlint:-options -d made java/*.java 2>/dev/null
fi
