# What a start of gst_run and gst_try needs. To be sourced by sh, with the script's name in `name`, and the folder of this repository in `top`.
#
# A built program lies in out/ beside the scripts: out/NAME, and beside it NAME.of, a checksum of the sources that it was built from, and
# the names of these files and of their folders, in a list NAME.seen. The list bears the time at which the sources were last found to be those of
# NAME.of. A start looks whether one of these files or folders was changed since (written, replaced, added, removed: all of that changes the
# time at which the file's entry or its folder was changed, whatever time the file itself bears). Only then the checksum is made anew
# (checks/building.sh). An older find, which reads no list of names, says so, and then it is made at each start.

say() { printf '%s: %s\n' "$name" "$*" >&2; }

# Whether the words ask for help: there are none, or --help is among them.
ask_help() {
	[ $# -gt 0 ] || return 0
	for word; do
		case $word in
		--help) return 0 ;;
		--) return 1 ;;
		esac
	done
	return 1
}

usage() {
	cat >&2 <<-END
	usage: $name [--script FILE] [--threads on|off] [--order N] [--quiet] WORD...

	The WORDs are a launch line as gst-launch-1.0 takes it, for example
	  $name filesrc location=in.wav ! wavparse ! mulawenc ! wavenc ! filesink location=out.wav

	  --quiet           print the status and a fault, and no counts
	  --order N         the number from which the order of the tasks' turns is drawn (0 without it)
	  --script FILE     a script, a command a line: at PAD N or now PAD, and then relink SINKPAD, unlink or unlink eos;
	                    at PAD N or now, and then remove ELEMENT. No other act can be done yet
	  --threads on|off  both run by turns on one thread today

	The exit status is the status that is printed, 0 to 15; 125 where there is no program to run. README.md tells the kinds of
	elements, the statuses and what is proved.

	END
}

# Prints the first name of the list that was changed since, or why the list can't be looked through, in the folder of this repository. Where nothing
# is printed and the status is 0, the list was looked through to its end, and nothing was changed.
look() {
	list=out/$name.seen
	# (a time that is still to come says nothing)
	[ -s "$list" ] && ! [ "$list" -nt /proc/self ] || return
	LC_ALL=C find -files0-from "$list" -maxdepth 0 -cnewer "$list" -print -quit
}

# Whether there is a program, and nothing was changed since its sources were last looked at.
is_unchanged() {
	[ -x "$top/out/$name" ] && [ -f "$top/out/$name.of" ] && changed=$({ CDPATH='' cd -- "${top:-/}" && look; } 2>&1) && [ -z "$changed" ]
}
