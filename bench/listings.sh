#!/usr/bin/env bash
# Writes the classes of all listings of examples/listings as class files, and tries them with the tools of a JDK where they
# are there: javap reads each class, and fails on any complaint; then java loads and links each class, with its version
# number lowered to 49, since the listings spell no stack maps. What must not pass there: the classes of wrong_kind.txt.
# Usage: bench/listings.sh
. "$(dirname "$0")/common.sh"
maker=$(program make_classes)
for listing in "$top"/examples/listings/*.txt; do
    name=$(basename "$listing" .txt)
    "$maker" "$listing" "$work/$name" >"$work/said" || { echo "$name: $(cat "$work/said")"; exit 1; }
    echo "$name: $(cat "$work/said")"
done
rm -f "$work/said"
if command -v javap >/dev/null; then
    for class in $(find "$work" -name '*.class' | sort); do
        javap -c -p -v "$class" >"$work/shown" 2>"$work/complaint" || { echo "javap fails on $class"; exit 1; }
        if [ -s "$work/complaint" ] || grep -q -i '^ *Error' "$work/shown"; then
            cat "$work/complaint"; grep -i '^ *Error' "$work/shown" || true
            exit 1
        fi
    done
    rm -f "$work/shown" "$work/complaint"
    echo "javap: no complaint"
else
    echo "javap is not here: skipped"
fi
if ! command -v javac >/dev/null || ! command -v java >/dev/null; then
    echo "java is not here: skipped"
    exit 0
fi
mkdir "$work/tool" "$work/library"
cat >"$work/tool/Load.java" <<'J'
import java.nio.file.*; import java.util.*;
/** Loads and links the classes of a folder, and those of another folder where they name them. */
public class Load extends ClassLoader {
    final Path[] roots;
    Load(Path[] roots) { this.roots = roots; }
    protected Class<?> findClass(String name) throws ClassNotFoundException {
        for (Path root : roots) {
            try {
                byte[] bytes = Files.readAllBytes(root.resolve(name.replace('.', '/') + ".class"));
                bytes[7] = 49;
                return defineClass(name, bytes, 0, bytes.length);
            } catch (java.io.IOException e) { continue; }
        }
        throw new ClassNotFoundException(name);
    }
    public static void main(String[] words) throws Exception {
        Path folder = Path.of(words[0]);
        Load loader = new Load(new Path[] { folder, Path.of(words[1]) });
        List<Path> files = new ArrayList<>();
        try (var found = Files.walk(folder)) { found.filter(p -> p.toString().endsWith(".class")).sorted().forEach(files::add); }
        for (Path file : files) {
            String name = folder.relativize(file).toString();
            Class.forName(name.substring(0, name.length() - 6).replace('/', '.'), true, loader);
        }
    }
}
J
cat >"$work/library.txt" <<'L'
class demo/Taint $O 33
class javax/servlet/http/HttpServlet $O 33 ;; $I
class javax/servlet/http/HttpServletRequest $O 1537
class javax/servlet/http/HttpServletResponse $O 1537
class javax/servlet/http/HttpSession $O 1537
L
"$maker" "$work/library.txt" "$work/library" >/dev/null
javac -d "$work/tool" "$work/tool/Load.java"
for listing in "$top"/examples/listings/*.txt; do
    name=$(basename "$listing" .txt)
    linked=yes
    java -Xverify:all -cp "$work/tool" Load "$work/$name" "$work/library" >"$work/said" 2>&1 || linked=no
    case "$name $linked" in
        "wrong_kind no" | *" yes") ;;
        *) cat "$work/said"; echo "java refuses $name"; exit 1 ;;
    esac
    if [ "$name $linked" = "wrong_kind yes" ]; then echo "java takes $name"; exit 1; fi
done
echo "java: each class is linked but that of wrong_kind"
