#!/bin/sh
# Runs the program on its stored script, and on the same requests as frames, in both versions, over streams that are
# interrupted, cut short or fail (streams.c), and compares the status, how many bytes of the replies were written, and the
# fault.
set -u
top=$(cd "$(dirname "$0")/../.." && pwd)
program=$1
work=$(mktemp -d) || exit 1
trap 'rm -rf "$work"' EXIT
${CC:-cc} -shared -fPIC -o "$work/streams.so" "$top/tests/program/streams.c" -ldl || exit 1

# the sentence that says what a fault means
sentence() {
    case $1 in
        Read) echo "standard input could not be read" ;;
        Write) echo "standard output could not be written: is the disk full, or its reader gone?" ;;
    esac
}

passed=0
failed=0
registry=--everyday
# COMMAND INPUT REPLIES, and rows: NAME STATUS BYTES FAULT VARIABLE=NUMBER ..
compare() {
    while read -r name status bytes fault variables; do
        # shellcheck disable=SC2086
        env $variables LD_PRELOAD="$work/streams.so" "$program" "$1" $registry <"$2" >"$work/out" 2>"$work/err"
        ended=$?
        : >"$work/wanted"
        [ "$fault" = - ] || { echo "fault: $fault" && sentence "$fault"; } >"$work/wanted"
        head -c "$bytes" "$3" >"$work/front"
        if [ "$ended" = "$status" ] && cmp -s "$work/front" "$work/out" && cmp -s "$work/wanted" "$work/err"; then
            passed=$((passed + 1))
        else
            failed=$((failed + 1))
            echo "$1: $name: ended with status $ended over $2"
            od -c "$work/out"
            cat "$work/err"
        fi
    done
}

# the lines end at 19, 39, 59 and 80, in version 2 at 26, 49, 72 and 96, and what they print at 7, 14, 21 and 31; of the
# whole input 64 interruptions are tried again, and of each printed reply
cp "$top/crates/droid_desk/stdin" "$work/lines_1"
sed 's/^/v2 /; s/ create .*/& md5/' "$work/lines_1" >"$work/lines_2"
for version in 1 2; do
    end=80
    [ $version = 1 ] || end=96
    compare script "$work/lines_$version" "$top/crates/droid_desk/stdout" <<ROWS
steady 0 31 - READ_WIDTH=8192
read_byte_by_byte 0 31 - READ_WIDTH=1
read_interrupted_64_times 0 31 - READ_INTERRUPTIONS=64
read_interrupted_65_times 4 0 Read READ_INTERRUPTIONS=65
read_fails_at_once 4 0 Read READ_ROOM=0
read_fails_in_the_middle 4 0 Read READ_ROOM=40
read_fails_once_in_the_middle 4 0 Read READ_FAILS_ONCE=40
written_byte_by_byte 0 31 - WRITE_WIDTH=1
write_interrupted_64_times 0 31 - WRITE_INTERRUPTIONS=64
write_interrupted_65_times 4 0 Write WRITE_INTERRUPTIONS=65
write_fails_in_the_first_reply 4 3 Write WRITE_ROOM=3
write_fails_in_the_second_reply 4 10 Write WRITE_ROOM=10 WRITE_WIDTH=2
write_fails_behind_the_last_reply 0 31 - WRITE_ROOM=31
write_takes_nothing 4 0 Write WRITE_WIDTH=0
read_interrupted_64_times_within_a_line 0 31 - READ_INTERRUPTED_AT=30:64
read_interrupted_65_times_within_a_line 4 0 Read READ_INTERRUPTED_AT=30:65
read_interrupted_64_times_over_two_lines 0 31 - READ_INTERRUPTED_AT=10:32,30:32
read_interrupted_65_times_over_two_lines 4 0 Read READ_INTERRUPTED_AT=10:64,30:1
read_interrupted_64_times_at_the_end 0 31 - READ_INTERRUPTED_AT=$end:64
read_interrupted_65_times_at_the_end 4 0 Read READ_INTERRUPTED_AT=$end:65
read_interrupted_65_times_with_the_end 4 0 Read READ_INTERRUPTED_AT=10:64,$end:1
written_interrupted_64_times_within_two_replies 0 31 - WRITE_INTERRUPTED_AT=3:64,10:64
written_interrupted_64_times_before_each_reply 0 31 - WRITE_INTERRUPTED_AT=0:64,7:64,14:64,21:64
written_interrupted_64_times_over_one_reply 0 31 - WRITE_INTERRUPTED_AT=7:32,10:32
written_interrupted_64_times_at_three_places 0 31 - WRITE_INTERRUPTED_AT=0:20,3:20,6:24
written_interrupted_65_times_at_three_places 4 6 Write WRITE_INTERRUPTED_AT=0:20,3:20,6:25
written_interrupted_65_times_over_one_reply 4 10 Write WRITE_INTERRUPTED_AT=7:32,10:33
written_interrupted_65_times_within_the_second_reply 4 10 Write WRITE_INTERRUPTED_AT=3:64,10:65
written_interrupted_65_times_within_the_last_reply 4 25 Write WRITE_INTERRUPTED_AT=3:64,10:64,17:64,25:65
ROWS
done

zeros='\0\0\0\0\0\0\0\0'
client='\0\0\0\001'
first='\0\0\0\0\0\0\0\001'
second='\0\0\0\0\0\0\0\002'
one='\0\0\0\001'
top_folder="$one\\0\\0\\0\\0$zeros"
# VERSION, the last byte of the length of a profile's body, and what stands behind it, its hash; of each frame version and
# kind, client, number, length of the body, body
write_frames() {
    version="\\00$1"
    printf '%b' "$version\\001$client$first\\0\\0\\0$2\\0\\001\\0\\0\\0$3" >"$work/requests_$1"
    for _ in 1 2; do
        printf '%b' "$version\\002$client$second\\0\\0\\0\\022${top_folder}in" >>"$work/requests_$1"
    done
    printf '%b' "$version\\002$client$second\\0\\0\\0\\023${top_folder}out" >>"$work/requests_$1"
    printf '%b' "$version\\0201$client$first\\0\\0\\0\\004$one" >"$work/replies_$1"
    for _ in 1 2; do
        printf '%b' "$version\\0202$client$second\\0\\0\\0\\004$one" >>"$work/replies_$1"
    done
    printf '%b' "$version\\0210$client$second\\0\\0\\0\\001\\002" >>"$work/replies_$1"
}
write_frames 1 '\005' ''
write_frames 2 '\006' '\001'

# STREAM START WRITTEN FAULT CUT [VARIABLE=NUMBER ..]
# Each line of standard input has words PLACE:TIMES, interruptions of one frame or reply that begins at START. Writes two rows
# for it: with these interruptions all WRITTEN bytes are written; with 65 at the last place the program ends by FAULT, after CUT
# bytes, or, where that is -, after those before the place.
interrupted() {
    stream=$1 start=$2 whole=$3 fault=$4 cut=$5
    shift 5
    while read -r line; do
        at=
        for place in $line; do
            last=$((start + ${place%:*}))
            at=$at${at:+,}$last:${place#*:}
        done
        more=${at%:*}:65
        [ "$cut" = - ] && due=$last || due=$cut
        echo "interrupted_64_times_at_$at 0 $whole - ${stream}_INTERRUPTED_AT=$at $*"
        echo "interrupted_65_times_at_$more 4 $due $fault ${stream}_INTERRUPTED_AT=$more $*"
    done
}
# interruptions before the header of a frame, within it, behind it and within its body of 18 bytes
cat >"$work/places" <<'PLACES'
0:64
5:64
18:64
30:64
0:32 18:32
17:63 35:1
0:1 18:63
7:20 18:20 25:24
PLACES

# where the frames end; their replies end at 22, 44, 66 and 85 in both versions
while read -r version a b c d; do
    compare run "$work/requests_$version" "$work/replies_$version" <<ROWS
steady 0 85 - READ_WIDTH=8192
read_byte_by_byte 0 85 - READ_WIDTH=1
read_interrupted_64_times 0 85 - READ_INTERRUPTIONS=64
read_interrupted_65_times 4 0 Read READ_INTERRUPTIONS=65
read_fails_at_once 4 0 Read READ_ROOM=0
read_fails_between_frames 4 22 Read READ_ROOM=$a
read_fails_within_a_frame 4 44 Read READ_ROOM=$((c - 1))
read_fails_once_within_a_frame 4 22 Read READ_FAILS_ONCE=40
written_byte_by_byte 0 85 - WRITE_WIDTH=1
write_interrupted_64_times 0 85 - WRITE_INTERRUPTIONS=64
write_interrupted_65_times 4 0 Write WRITE_INTERRUPTIONS=65
write_fails_in_the_first_reply 4 3 Write WRITE_ROOM=3
write_fails_in_the_third_reply 4 50 Write WRITE_ROOM=50 WRITE_WIDTH=7
write_fails_between_replies 4 44 Write WRITE_ROOM=44
write_fails_behind_the_last_reply 0 85 - WRITE_ROOM=85
write_takes_nothing 4 0 Write WRITE_WIDTH=0
read_interrupted_64_times_within_two_frames 0 85 - READ_INTERRUPTED_AT=10:64,40:64
read_interrupted_64_times_before_each_frame_and_the_end 0 85 - READ_INTERRUPTED_AT=0:64,$a:64,$b:64,$c:64,$d:64
read_interrupted_64_times_over_header_and_body 0 85 - READ_INTERRUPTED_AT=10:32,20:32
read_interrupted_65_times_over_header_and_body 0 85 - READ_INTERRUPTED_AT=10:32,20:33
read_interrupted_65_times_within_the_second_frame 4 22 Read READ_INTERRUPTED_AT=10:64,40:65
read_interrupted_64_times_within_three_frames 0 85 - READ_INTERRUPTED_AT=5:64,30:64,70:64
read_interrupted_65_times_within_the_third_frame 4 44 Read READ_INTERRUPTED_AT=5:64,30:64,70:65
read_interrupted_65_times_within_the_last_frame 4 66 Read READ_INTERRUPTED_AT=10:64,40:64,80:64,120:65
read_interrupted_65_times_at_the_end 4 85 Read READ_INTERRUPTED_AT=10:64,$d:65
written_interrupted_64_times_within_two_replies 0 85 - WRITE_INTERRUPTED_AT=5:64,30:64
written_interrupted_64_times_before_each_reply 0 85 - WRITE_INTERRUPTED_AT=0:64,22:64,44:64,66:64
written_interrupted_64_times_over_header_and_body 0 85 - WRITE_INTERRUPTED_AT=5:32,20:32
written_interrupted_65_times_over_header_and_body 0 85 - WRITE_INTERRUPTED_AT=5:32,20:33
written_interrupted_65_times_within_the_second_reply 4 30 Write WRITE_INTERRUPTED_AT=5:64,30:65
written_interrupted_64_times_within_three_replies 0 85 - WRITE_INTERRUPTED_AT=5:64,30:64,50:64
written_interrupted_65_times_within_the_third_reply 4 50 Write WRITE_INTERRUPTED_AT=5:64,30:64,50:65
written_interrupted_65_times_within_the_last_reply 4 80 Write WRITE_INTERRUPTED_AT=5:64,30:64,50:64,80:65
read_interrupted_64_times_within_the_second_and_the_third 0 85 - READ_INTERRUPTED_AT=$((a + 9)):64,$((b)):32,$((b + 24)):32
ROWS
    interrupted READ "$a" 85 Read 22 <"$work/places" >"$work/rows"
    interrupted READ "$a" 85 Read 22 READ_WIDTH=1 <"$work/places" >>"$work/rows"
    compare run "$work/requests_$version" "$work/replies_$version" <"$work/rows"
done <<'ENDS'
1 23 59 95 132
2 24 60 96 133
ENDS

# Replies with a list or bytes of their own: the Finished of an empty file e.txt, and the first three bytes of an export
# without rows. VERSION, the length and the end of a profile's body as above; the hash of no bytes, the length of the
# Finished, and the length of the export, whose first line names the hash
write_lists() {
    version="\\00$1"
    third='\0\0\0\0\0\0\0\003'
    fourth='\0\0\0\0\0\0\0\004'
    printf '%b' "$version\\001$client$first\\0\\0\\0$2\\0\\001\\0\\0\\0$3" >"$work/asked_$1"
    printf '%b' "$version\\003$client$second\\0\\0\\0\\041$one\\0\\0\\0\\0$zeros$zeros\\0\\0\\0\\004e.txt" >>"$work/asked_$1"
    printf '%b' "$version\\005$client$third\\0\\0\\0\\010$one$one" >>"$work/asked_$1"
    printf '%b' "$version\\010$client$fourth\\0\\0\\0\\024$one$zeros\\0\\0\\0\\003\\001\\001\\007\\001" >>"$work/asked_$1"
    printf '%b' "$version\\0201$client$first\\0\\0\\0\\004$one$version\\0202$client$second\\0\\0\\0\\004$one" >"$work/lists_$1"
    printf '%b' "$version\\0204$client$third\\0\\0\\0$5\\002\\0$4\\0\\001\\005dev/4" >>"$work/lists_$1"
    printf '%b' "$version\\0207$client$fourth\\0\\0\\0\\023$third\\0\\0\\0\\0\\0\\0\\0$6\"ID" >>"$work/lists_$1"
}
md5='\0324\0035\0214\0331\0217\0\0262\0004\0351\0200\011\0230\0354\0370\0102\0176'
sha256='\0343\0260\0304\0102\0230\0374\0034\0024\0232\0373\0364\0310\0231\0157\0271\0044'
sha256=$sha256'\0047\0256\0101\0344\0144\0233\0223\0114\0244\0225\0231\0033\0170\0122\0270\0125'
registry="--registry $top/tests/program/sample_registry.csv"
write_lists 1 '\005' '' "$md5" '\032' '\0301'
write_lists 2 '\006' '\002' "\\002$sha256" '\053' '\0304'
while read -r version list part end; do
    # the Finished begins at 44. Interruptions before a reply, behind its header, and behind the fields before its list or bytes
    interrupted WRITE 44 "$end" Write - >"$work/rows" <<PLACES
0:64
18:64
$list:64
0:20 18:20 $list:24
PLACES
    interrupted WRITE "$part" "$end" Write - >>"$work/rows" <<'PLACES'
0:64
18:64
34:64
0:20 18:20 34:24
PLACES
    compare run "$work/asked_$version" "$work/lists_$version" <"$work/rows"
done <<'REPLIES'
1 38 88 125
2 55 105 142
REPLIES
echo "streams: $passed passed, $failed failed"
[ "$failed" -eq 0 ]
