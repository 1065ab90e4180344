registry=$(dirname "$0")/../../../../registries/common.csv
echo "registry: the built-in registry of everyday formats, MD5 $(md5sum <"$registry" | cut -c1-32)"
cat <<'END'
fault: Output
nodir/x.csv: cannot be created: its folder does not exist: create it first
END
