registry=$(dirname "$0")/../../../../registries/common.csv
echo "registry: the built-in registry of everyday formats, MD5 $(md5sum <"$registry" | cut -c1-32)"
cat <<'END'
fault: Output
.: something else than a file has this name: choose another
END
