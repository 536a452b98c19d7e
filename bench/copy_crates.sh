# Read by the scripts beside it. copy_crates FOLDER NAME..: copies these crates of the repository that $root names, without what
# checks left there, to FOLDER/crates, and their lines of crates.txt to FOLDER/crates.txt.
copy_crates() {
	folder=$1
	shift
	for crate in "$@"; do
		mkdir -p "$folder/crates/$crate"
		for part in src specs proofs; do
			if [ -d "$root/crates/$crate/$part" ]; then cp -r "$root/crates/$crate/$part" "$folder/crates/$crate/"; fi
		done
		grep "^$crate[ :]" "$root/crates.txt" >>"$folder/crates.txt"
	done
}
