// The verilated module as a program: reads stim.bin and prints the listing. Verilator names the
// class VNAME after the module, which is `sheet`; OUTPUT_TYPE, IN and OUT are given by bench/run:
// the record of the output's type, and the leaves of input and output.
//
// Usage: clocked [quiet]    quiet prints no listing
#include "Vsheet.h"
#include "listing.h"
#include "verilated.h"

static uint8_t stim[65535], out[65535 * 64];

// The first leaf is the highest byte of a vector; memory has the lowest byte first.
static void reversed(uint8_t *to, const uint8_t *from, size_t leaves)
{
    for (size_t leaf = 0; leaf < leaves; leaf++)
        to[leaf] = from[leaves - 1 - leaf];
}

int main(int count, char **)
{
    size_t cycles = read_whole("stim.bin", stim, sizeof stim) / IN;
    Vsheet *sheet = new Vsheet;
    for (size_t cycle = 0; cycle < cycles; cycle++) {
        sheet->clk = 0;
        reversed(reinterpret_cast<uint8_t *>(&sheet->in), stim + cycle * IN, IN);
        sheet->eval();
        reversed(out + cycle * OUT, reinterpret_cast<const uint8_t *>(&sheet->out), OUT);
        sheet->clk = 1;
        sheet->eval();
    }
    if (count < 2)
        print_listing(OUTPUT_TYPE, out, cycles, OUT);
    delete sheet;
    return 0;
}
