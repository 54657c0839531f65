#!/usr/bin/env python3
"""Writes the image of a loop of stores and the trace of its run, and prints how many rows it has.

make_stores.py IMAGE TRACE AREA STRIDE PASSES: the loop goes over AREA bytes of memory, stores 8 bytes at every STRIDE
bytes, and does all of that PASSES times. The rows are worked out here.
"""
import argparse

from make_rows import BASE, i_type, jal, u_type, write_image

# where the area begins: AUIPC gives addresses by multiples of 4,096 from the pc
FIRST = BASE + 0x100000
COLUMNS = "insn,pc_rdata,pc_wdata,rd_addr,rd_wdata,mem_addr,mem_wmask,mem_wdata"
PAGE = 4096
# what is left of the judge's RAM by default, 128 MiB
MOST = 127 << 20


def code(area, stride):
    """The words of the loop: x1 goes over the area, and x3 is its end."""
    return [
        u_type(0x17, 1, (FIRST - BASE) // PAGE),  # AUIPC x1, to the area
        u_type(0x17, 3, (FIRST - BASE + area) // PAGE),  # AUIPC x3, to its end and 4 bytes
        i_type(0x13, 0, 3, 3, -4),  # ADDI x3, x3, -4
        1 << 20 | 1 << 15 | 3 << 12 | 0x23,  # SD x1, 0(x1)
        i_type(0x13, 0, 1, 1, stride),  # ADDI x1, x1, STRIDE
        0xFE000CE3 | 3 << 20 | 1 << 15 | 1 << 12,  # BNE x1, x3, to the store
        jal(0, -24),  # JAL x0, to the first word
    ]


def write_pass(trace, words, area, stride):
    """Writes the rows of one pass over the area."""
    end = FIRST + area
    at = [BASE + 4 * place for place in range(len(words) + 1)]
    values = (1, FIRST), (3, end + 4), (3, end)
    for place, (register, value) in enumerate(values):
        trace.write(f"{words[place]},{at[place]},{at[place + 1]},{register},{value},0,0,0\n")
    store, add, branch = (f"{words[place]},{at[place]}" for place in (3, 4, 5))
    for address in range(FIRST, end, stride):
        after = address + stride
        target = at[3] if after != end else at[6]
        trace.write(
            f"{store},{at[4]},0,0,{address},255,{address}\n"
            f"{add},{at[5]},1,{after},0,0,0\n"
            f"{branch},{target},0,0,0,0,0\n"
        )
    trace.write(f"{words[6]},{at[6]},{BASE},0,0,0,0,0\n")


def main():
    parser = argparse.ArgumentParser(description="Writes the image of a loop of stores and the trace of its run.")
    parser.add_argument("image")
    parser.add_argument("trace")
    parser.add_argument("area", type=int, help="bytes, a multiple of 4,096 and of the stride, at most 127 MiB")
    parser.add_argument("stride", type=int, help="bytes, a multiple of 8, from 8 to 2,040")
    parser.add_argument("passes", type=int)
    options = parser.parse_args()
    if options.stride % 8 or not 8 <= options.stride <= 2040:
        parser.error("the stride is no multiple of 8 from 8 to 2,040")
    if options.area % PAGE or options.area % options.stride or not 0 < options.area <= MOST:
        parser.error("the area is no multiple of 4,096 and of the stride, or not in 1 byte to 127 MiB")
    words = code(options.area, options.stride)
    write_image(options.image, words)
    with open(options.trace, "w", encoding="ascii", buffering=1 << 20) as trace:
        trace.write(COLUMNS + "\n")
        for _ in range(options.passes):
            write_pass(trace, words, options.area, options.stride)
    print(options.passes * (4 + 3 * options.area // options.stride))


if __name__ == "__main__":
    main()
