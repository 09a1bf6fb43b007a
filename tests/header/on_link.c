/* on_link.c - the helpers of pcl.h and the library agree: what a helper makes is written, and read back or acted on. */
#include <stdio.h>
#include <string.h>
#include "pcl_text.h"
#include "trial.h"

enum { A, B, HOSTS };
enum { TRANSMITTER_A = 31, RECEIVER_A = 30, TRANSMITTER_B = 2, RECEIVER_B = 29, COUNTER = 31, SMALL = 3 };

static uint16_t cells[PCL_CELLS(HOSTS)], memory[HOSTS][PCL_MEMORY_MOST];
static const size_t length = PCL_CELLS(HOSTS);

/* A word by which its place is known. */
static uint16_t word_at(uint32_t place) { return (uint16_t)(place * 40503u >> 3); }

static void fit(void)
{
    static const uint32_t setup[PCL_SETUP(HOSTS)] = { TRANSMITTER_A, RECEIVER_A, COUNTER, PCL_MEMORY_MOST,
                                                      TRANSMITTER_B, RECEIVER_B, COUNTER, SMALL };

    for (uint32_t place = 0; place < PCL_MEMORY_MOST; place++)
        memory[A][place] = memory[B][place] = word_at(place);
    expect("fit", 0, pcl_fit(cells, length, setup, PCL_SETUP(HOSTS)), PCL_DONE);
    expect("master", 0, pcl_write_byte(cells, length, B, PCL_TMMR + 1, (PCL_TMMR_MASTER | PCL_TMMR_AUT_ADR) >> 8), PCL_DONE);
}

static void put(uint32_t unit, uint32_t offset, unsigned word)
{
    expect("write", offset, pcl_write(cells, length, unit, offset, (uint16_t)word), PCL_DONE);
}

static unsigned get(uint32_t unit, uint32_t offset)
{
    uint32_t answer = pcl_read(cells, length, unit, offset);

    expect("read", offset, pcl_number(answer), PCL_DONE);
    return pcl_value(answer);
}

static uint64_t move(uint32_t unit, uint32_t side) { return pcl_move(cells, length, memory[unit], PCL_MEMORY_MOST, unit, side); }

/* The next slice of computer A's transmitter, which says the same codes as TSR does. */
static uint32_t slice_of_a(uint16_t data_mask)
{
    for (;;) {
        uint32_t answer = pcl_slice(cells, length, data_mask, 0);

        expect("slice", 0, pcl_number(answer), PCL_DONE);
        if (pcl_number(answer) != PCL_DONE || pcl_address(answer) == TRANSMITTER_A)
            return answer;
    }
}

static void expect_codes(const char *what, uint32_t answer, unsigned a, unsigned b)
{
    expect(what, 0, pcl_a(answer), a);
    expect(what, 1, pcl_b(answer), b);
}

/* ---- registers and their bits */

/* A bit that can be written and read is found where its name says, and alone but for the read-only ones. */
static void check_written(uint32_t offset, unsigned read_only, const unsigned *masks, size_t count)
{
    for (size_t i = 0; i < count; i++) {
        fit();
        put(A, offset, masks[i]);
        expect(pcl_register_text(offset), masks[i], get(A, offset) & ~read_only, masks[i]);
    }
}

static void check_bits(void)
{
    static const unsigned tcr[] = { PCL_TCR_ST_TXM, PCL_TCR_INH_ADI, PCL_TCR_EA16, PCL_TCR_EA17, PCL_TCR_IE, PCL_TCR_RD_SILO, PCL_TCR_DC,
                                    PCL_TCR_SND_WD, PCL_TCR_TX_NPR, PCL_TCR_RIB };
    static const unsigned tsr[] = { PCL_TSR_TBS_BSY, PCL_TSR_SORE, PCL_TSR_SUC_TXF, PCL_TSR_OVERUN, PCL_TSR_TIM_OUT, PCL_TSR_MST_DWN,
                                    PCL_TSR_TXM_ERR, PCL_TSR_MEM_OFL };
    static const unsigned tmmr[] = { PCL_TMMR_SEC | PCL_TMMR_AUT_ADR, PCL_TMMR_NOW_MST | PCL_TMMR_AUT_ADR, PCL_TMMR_AUT_ADR,
                                     PCL_TMMR_TXM_AD | PCL_TMMR_AUT_ADR };
    static const unsigned rcr[] = { PCL_RCR_RCV_DAT, PCL_RCR_INH_ADI, PCL_RCR_EA16, PCL_RCR_EA17, PCL_RCR_IE, PCL_RCR_LD_SILO,
                                    PCL_RCR_RCV_WD, PCL_RCR_RC_NPR, PCL_RCR_REJ };
    static const unsigned rsr[] = { PCL_RSR_RECOM, PCL_RSR_SUC_TXF, PCL_RSR_BC_OFL, PCL_RSR_TIM_OUT, PCL_RSR_PAR, PCL_RSR_TXM_ERR,
                                    PCL_RSR_MEM_OFL };

    check_written(PCL_TCR, PCL_TCR_DT_O_RDY, tcr, sizeof tcr / sizeof tcr[0]);
    check_written(PCL_TSR, PCL_TSR_DTIRDY | PCL_TSR_BUSY | PCL_TSR_ERR, tsr, sizeof tsr / sizeof tsr[0]);
    check_written(PCL_TMMR, PCL_TMMR_AIP_RDY | PCL_TMMR_AOP_RDY, tmmr, sizeof tmmr / sizeof tmmr[0]);
    check_written(PCL_RCR, PCL_RCR_DTIRDY, rcr, sizeof rcr / sizeof rcr[0]);
    check_written(PCL_RSR, PCL_RSR_DTORDY | PCL_RSR_BUSY | PCL_RSR_ERR, rsr, sizeof rsr / sizeof rsr[0]);
}

/* An offset has a name exactly where there is a register. */
static void check_register_names(void)
{
    fit();
    for (uint32_t offset = 0; offset < 64; offset++) {
        int none = !strcmp(pcl_register_text(offset), "no register");
        unsigned number = pcl_number(pcl_write_byte(cells, length, A, offset, 0));

        expect("no register by its name", offset, number == PCL_NO_REGISTER, (unsigned)none);
        number = pcl_number(pcl_read(cells, length, A, offset));
        expect("no register to read", offset, number == PCL_NO_REGISTER, (unsigned)(none || offset % 2 == 1));
    }
}

/* ---- destinations, senders, counts, addresses, codes */

static void check_destinations(void)
{
    fit();
    for (unsigned address = 0; address < 64; address++) {
        put(A, PCL_TCR, PCL_TCR_DESTINATION(address));
        expect("destination read back", address, pcl_destination(get(A, PCL_TCR)), address % 32);
        expect("SND WD for no destination", address, get(A, PCL_TCR) & PCL_TCR_SND_WD, 0);
    }
    put(B, PCL_RCR, PCL_RCR_RCV_WD);
    put(A, PCL_TSDB, 1);
    put(A, PCL_TCR, PCL_TCR_DESTINATION(RECEIVER_B) | PCL_TCR_SND_WD);
    slice_of_a(0);
    expect("sender", 0, pcl_sender(get(B, PCL_RCR)), TRANSMITTER_A);
}

/* A count made for n words reads back, and counts down word by word to none. */
static void check_counts(void)
{
    static const uint32_t counts[] = { 1, 2, 63, 64, 65, 127, 128, 16383, 16384, 16385, 32766, 32767, PCL_WORDS_MOST };

    for (size_t i = 0; i < sizeof counts / sizeof counts[0]; i++) {
        uint32_t moved = 0, most = counts[i] < 64 ? counts[i] : 64;

        fit();
        put(A, PCL_RDBC, pcl_byte_count(counts[i]));
        expect("RDBC read back", counts[i], pcl_words_left((uint16_t)get(A, PCL_RDBC)), counts[i]);
        put(A, PCL_TSBC, pcl_byte_count(counts[i]));
        expect("TSBC read back", counts[i], pcl_words_left((uint16_t)get(A, PCL_TSBC)), counts[i]);
        put(A, PCL_TCR, PCL_TCR_TX_NPR);
        while (move(A, PCL_TRANSMITTER) == PCL_DONE) {
            moved++;
            if (moved < counts[i])
                expect("words left", counts[i], pcl_words_left((uint16_t)get(A, PCL_TSBC)), counts[i] - moved);
        }
        expect("words moved", counts[i], moved, most);
        expect("TX NPR after the last word", counts[i], get(A, PCL_TCR) & PCL_TCR_TX_NPR, moved == counts[i] ? 0 : PCL_TCR_TX_NPR);
    }
}

static void check_addresses(void)
{
    static const uint32_t addresses[] = { 0, 2, 0177774, 0177776, 0200000, 0377776, 0400000, 0577776, 0600000, 0777774, 0777776 };

    for (size_t i = 0; i < sizeof addresses / sizeof addresses[0]; i++) {
        uint32_t address = addresses[i], next = (address + 2) & 0777777;
        uint64_t answer;

        fit();
        put(A, PCL_TSBC, pcl_byte_count(2));
        put(A, PCL_TSBA, pcl_bus_word(address));
        put(A, PCL_TCR, PCL_TCR_TX_NPR | pcl_bus_ea(address));
        expect("address read back", address, pcl_bus_address(get(A, PCL_TCR), (uint16_t)get(A, PCL_TSBA)), address);
        expect("move from", address, move(A, PCL_TRANSMITTER), PCL_DONE);
        expect("word from", address, get(A, PCL_TSDB), word_at(address / 2));
        expect("the next address", address, pcl_bus_address(get(A, PCL_TCR), (uint16_t)get(A, PCL_TSBA)), next);
        expect("memory overflow", address, get(A, PCL_TSR) & PCL_TSR_MEM_OFL, next == 0 ? PCL_TSR_MEM_OFL : 0);

        put(B, PCL_TSBC, pcl_byte_count(1));
        put(B, PCL_TSBA, pcl_bus_word(address));
        put(B, PCL_TCR, PCL_TCR_TX_NPR | pcl_bus_ea(address));
        answer = move(B, PCL_TRANSMITTER);
        expect("missing address", address, pcl_missing(answer), address / 2 < SMALL ? 0 : address);

        put(B, PCL_RDBA, pcl_bus_word(address));
        put(B, PCL_RCR, pcl_bus_ea(address));
        expect("address at the receiver", address, pcl_bus_address(get(B, PCL_RCR), (uint16_t)get(B, PCL_RDBA)), address);
    }
}

static void begin(unsigned words)
{
    fit();
    put(B, PCL_RCR, PCL_RCR_RCV_WD | PCL_RCR_RCV_DAT);
    while (words-- > 0)
        put(A, PCL_TSDB, word_at(words));
}

/* The codes that a slice answers, and the registers show, by their names. */
static void check_codes(void)
{
    uint32_t answer;

    begin(2);
    expect_codes("nobody sends", slice_of_a(0), PCL_A_OFF_LINE, PCL_B_BUSY);
    put(A, PCL_TCR, PCL_TCR_DESTINATION(RECEIVER_A) | PCL_TCR_SND_WD);
    expect_codes("a receiver that is not ready", slice_of_a(0), PCL_A_WORD, PCL_B_BUSY);
    put(A, PCL_TCR, PCL_TCR_DESTINATION(RECEIVER_B) | PCL_TCR_SND_WD);
    expect_codes("a word", slice_of_a(0), PCL_A_WORD, PCL_B_ACKNOWLEDGE);
    expect_codes("waiting", slice_of_a(0), PCL_A_NULL, PCL_B_NULL);
    put(A, PCL_TSR, 0);
    put(A, PCL_TCR, PCL_TCR_ST_TXM);
    answer = slice_of_a(0);
    expect_codes("the second word", answer, PCL_A_WORD, PCL_B_ACKNOWLEDGE);
    expect("A in TSR", 0, pcl_rsp_a(get(A, PCL_TSR)), pcl_a(answer));
    expect("B in TSR", 0, pcl_rsp_b(get(A, PCL_TSR)), pcl_b(answer));
    expect("A in RSR", 0, pcl_rsp_a(get(B, PCL_RSR)), pcl_a(answer));
    expect("B in RSR", 0, pcl_rsp_b(get(B, PCL_RSR)), pcl_b(answer));
    expect_codes("the last CRC, taken", slice_of_a(0), PCL_A_LAST_CRC, PCL_B_NULL);
    expect("B in TSR", 1, pcl_rsp_b(get(A, PCL_TSR)), PCL_B_NULL);
    get(B, PCL_RDDB);
    get(B, PCL_RDDB);
    expect_codes("the last CRC", slice_of_a(0), PCL_A_LAST_CRC, PCL_B_ACKNOWLEDGE);
    expect("success", 0, get(A, PCL_TSR) & get(B, PCL_RSR), PCL_TSR_SUC_TXF);

    begin(2);
    put(A, PCL_TCR, PCL_TCR_DESTINATION(RECEIVER_B) | PCL_TCR_SND_WD | PCL_TCR_ST_TXM);
    slice_of_a(1);
    expect_codes("after a damaged word", slice_of_a(0), PCL_A_WORD, PCL_B_CHECK_FAILURE);
    expect("B in RSR", 2, pcl_rsp_b(get(B, PCL_RSR)), PCL_B_CHECK_FAILURE);
}

/* ---- service */

static void check_service(void)
{
    const uint32_t a_sends = pcl_side_bit(A, PCL_TRANSMITTER), b_receives = pcl_side_bit(B, PCL_RECEIVER);
    uint64_t answer;

    fit();
    expect("nobody wants moves", 0, pcl_wants_moves(cells, length), PCL_DONE);
    expect("nobody wants interrupts", 0, pcl_wants_interrupts(cells, length), PCL_DONE);
    put(B, PCL_RDBC, pcl_byte_count(SMALL + 1));
    put(B, PCL_RCR, PCL_RCR_RCV_WD | PCL_RCR_RCV_DAT | PCL_RCR_RC_NPR | PCL_RCR_IE);
    put(A, PCL_TSBC, pcl_byte_count(SMALL + 1));
    put(A, PCL_TCR, PCL_TCR_DESTINATION(RECEIVER_B) | PCL_TCR_TX_NPR | PCL_TCR_SND_WD | PCL_TCR_ST_TXM);
    expect("A wants moves", 0, pcl_sides(pcl_wants_moves(cells, length)), a_sends);
    answer = pcl_move_all(cells, length, memory[A], PCL_MEMORY_MOST, A, PCL_TRANSMITTER);
    expect("number of A's moves", 0, pcl_number(answer), PCL_DONE);
    expect("words of A", 0, pcl_words_moved(answer), SMALL + 1);
    expect("nothing missing at A", 0, pcl_missing(answer), 0);
    expect("no more at A", 0, pcl_move_all(cells, length, memory[A], PCL_MEMORY_MOST, A, PCL_TRANSMITTER), PCL_NOTHING);
    for (unsigned words = 0; words <= SMALL; words++)
        expect_codes("a word of A's", slice_of_a(0), PCL_A_WORD, PCL_B_ACKNOWLEDGE);
    expect("B wants moves", 0, pcl_sides(pcl_wants_moves(cells, length)), b_receives);
    expect("no interrupt yet", 0, pcl_sides(pcl_wants_interrupts(cells, length)), 0);
    answer = pcl_move_all(cells, length, memory[B], SMALL, B, PCL_RECEIVER);
    expect("number of B's moves", 0, pcl_number(answer), PCL_DONE);
    expect("words of B", 0, pcl_words_moved(answer), SMALL);
    expect("missing at B", 0, pcl_missing(answer), 2 * SMALL);
    expect("NXL at B", 0, get(B, PCL_RSR) & PCL_RSR_NXL, PCL_RSR_NXL);
    expect("moves stopped", 0, pcl_sides(pcl_wants_moves(cells, length)), 0);
    expect("B wants an interrupt", 0, pcl_sides(pcl_wants_interrupts(cells, length)), b_receives);
    expect("too little memory", 0, pcl_move_all(cells, length, memory[B], SMALL - 1, B, PCL_RECEIVER), PCL_BAD_ROOM);
    expect("no room", 0, pcl_wants_moves(cells, 1) & pcl_wants_interrupts(cells, length - 1), PCL_BAD_ROOM);
}

/* ---- the layout */

/* Cells in which nearly every part is in use, as one number. */
static uint64_t sum_of_cells(void)
{
    uint64_t sum = 0xCBF29CE484222325u;         /* FNV-1a over the halves of each cell */

    begin(5);
    put(A, PCL_TSBC, pcl_byte_count(300));
    put(A, PCL_TSBA, 0123456);
    put(A, PCL_TCR, PCL_TCR_DESTINATION(RECEIVER_B) | PCL_TCR_TX_NPR | PCL_TCR_SND_WD | PCL_TCR_ST_TXM | PCL_TCR_EA16 | PCL_TCR_IE);
    move(A, PCL_TRANSMITTER);
    put(B, PCL_RDBC, pcl_byte_count(3));
    put(B, PCL_RCR, PCL_RCR_RCV_WD | PCL_RCR_RCV_DAT | PCL_RCR_RC_NPR | PCL_RCR_INH_ADI);
    slice_of_a(0);
    slice_of_a(0);
    move(B, PCL_RECEIVER);
    pcl_period(cells, length, A);
    pcl_period(cells, length, B);
    for (uint8_t address = 1; address <= 5; address++)
        expect("address", address, pcl_write_byte(cells, length, A, PCL_TMMR, address), PCL_DONE);
    expect("SEC", 0, pcl_write_byte(cells, length, A, PCL_TMMR + 1, (PCL_TMMR_SEC | PCL_TMMR_AUT_ADR) >> 8), PCL_DONE);
    put(B, PCL_TSDB, 0177777);
    put(B, PCL_TSR, PCL_TSR_SUC_TXF);
    put(A, PCL_RSR, PCL_RSR_RECOM);
    put(A, PCL_RDBA, 054320);
    for (size_t i = 0; i < 2 * length; i++)
        sum = (sum ^ (cells[i / 2] >> i % 2 * 8 & 255)) * 0x100000001B3u;
    return sum;
}

/* The cells of PCL_LAYOUT. Where they come out otherwise, saved cells mean something else than before: PCL_LAYOUT has to rise, and the
 * number and the sum here with it. */
static void check_layout(void)
{
    const int layout = 3;
    const uint64_t stored = 0x87635200298BB170, sum = sum_of_cells();

    expect("PCL_LAYOUT", 0, PCL_LAYOUT, layout);
    if (sum != stored)
        fprintf(stderr, "header: the cells are not those of layout %d; their sum is %#llx\n", layout, (unsigned long long)sum);
    expect("the cells as stored", 0, sum == stored, 1);
}

void check_on_link(void)
{
    check_bits();
    check_register_names();
    check_destinations();
    check_counts();
    check_addresses();
    check_codes();
    check_service();
    check_layout();
}
