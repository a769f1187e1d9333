#!/bin/sh
# Prints how many bytes each struct of net_bound.h has that a program keeps: sh c/sizes.sh [LIBRARY]. Of 64 bits they
# are those of this machine, of 32 bits those of a Cortex-M4, by clang or GCC; where there is none, a dash. c/run.sh compares
# docs/C.md with it. Of a LIBRARY for a Cortex-M4 it also prints the code that a linker takes of the calls of each task.
set -eu
here=$(cd "$(dirname "$0")" && pwd)
kept="net_bound_ring net_bound_packets net_base_packet_slot net_base_run net_bound_fragments net_bound_finite_receiver
net_base_answer_limit net_base_parts_sum net_bound_receiving_end net_bound_sending_end byte_ring"
folder=$(mktemp -d)
trap 'rm -rf "$folder"' EXIT
{
    printf '#include "net_bound.h"\n#include "programs/byte_ring.h"\n'
    for each in $kept; do
        printf 'const unsigned %s = sizeof(struct %s);\n' "$each" "$each"
    done
} > "$folder/sizes.c"
{
    printf '#include <stdio.h>\n#include "sizes.c"\nint main(void) {\n'
    for each in $kept; do
        printf '    printf("%s %%u\\n", %s);\n' "$each" "$each"
    done
    printf '    return 0;\n}\n'
} > "$folder/main.c"
"${CC:-cc}" -I "$here" "$folder/main.c" -o "$folder/main"
for compiler in "clang --target=thumbv7em-none-eabi" "arm-none-eabi-gcc -mcpu=cortex-m4 -mthumb" :; do
    $compiler -ffreestanding -I "$here" -S -o "$folder/sizes.s" "$folder/sizes.c" 2> "$folder/said" && break
done
"$folder/main" | while read -r name size; do
    small=$(awk -v label="$name:" '$1 == label { getline; print $2 }' "$folder/sizes.s")
    echo "| \`$name\` | $size | ${small:--} |"
done
[ $# = 0 ] || {
    echo 'void _start(void); void _start(void) {}' > "$folder/start.c"
    for task in ring packets 'fragments|parts_sum' finite_receiver \
        'receiving_end|sending_end|sequence_number|answer_limit|finite_receiver_(has_read_all|acknowledged)'; do
        calls=$(arm-none-eabi-nm -g --defined-only "$1" 2> "$folder/said" | awk '$2 == "T" { print $3 }' |
            grep -E "^net_base_[0-9]+_($task)" | sed 's/^/-Wl,-u,/')
        # shellcheck disable=SC2086
        arm-none-eabi-gcc -mcpu=cortex-m4 -mthumb -nostartfiles -Wl,--gc-sections --specs=nosys.specs $calls \
            "$folder/start.c" "$1" -o "$folder/task" 2> "$folder/said"
        echo "code of $task: $(arm-none-eabi-size -A "$folder/task" | awk '/^\.(text|rodata)/ { sum += $2 } END { print sum }')"
    done
}
