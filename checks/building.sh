# How gst_run and gst_try tell of what sources a program was built, and wait for another call that builds. To be sourced by bash behind
# checks/start.sh, with the patterns of the folders of sources that the program is made of in `roots`.

# Prints the names of all sources and of their folders, each with a zero byte behind it.
list() { find crates.txt crates crates/* -maxdepth 0 -print0 && find $roots -print0; }

# Prints a checksum of the names and contents of all sources.
sources() { find crates.txt $roots -type f -exec cksum {} + 2>/dev/null | LC_ALL=C sort | cksum; }

# Whether the program was built from the sources as they are, by their checksum. To be called in the folder of this repository.
is_built() {
	local new=out/$name.$$ status=1 is_listed=''
	[[ -x out/$name && -f out/$name.of ]] || return 1
	# (the time is taken before the files are read, and long enough before)
	[[ -w out ]] && : >"$new.now" && sleep 0.02 && list >"$new.seen" && is_listed=yes
	if [[ $(<"out/$name.of") == "$(sources)" ]]; then
		status=0
		[[ $is_listed ]] && touch -r "$new.now" "$new.seen" && mv -f "$new.seen" "out/$name.seen"
	fi
	rm -f "$new.now" "$new.seen"
	return $status
}

# Whether there is a folder out/ that can be written.
can_write() {
	mkdir -p out 2>/dev/null
	[[ -d out && -w out ]] && return 0
	say "the folder $PWD/out can't be written, and the program is to be built there: build it where the repository can be written"
	return 1
}

# Waits until no other call builds here.
lock() {
	local at=out/$name.lock waits="another call is building the program; waiting for it" waited=''
	if command -v flock >/dev/null; then
		exec 9>"$at"
		flock -n 9 && return
		say "$waits"
		flock 9
		return
	fi
	until mkdir "$at.d" 2>/dev/null; do
		[[ $waited ]] || say "$waits"
		waited=yes
		# (a call that was killed leaves its folder behind)
		if ! kill -0 "$(cat "$at.d/of" 2>/dev/null || echo $$)" 2>/dev/null; then rm -rf "$at.d"; else sleep 1; fi
	done
	echo $$ >"$at.d/of"
	trap 'rm -rf "'"$at.d"'"' EXIT
}
