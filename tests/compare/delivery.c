/* delivery.c - demand 3 on the archive and the second library: a message of n
 * words, opened under document 01's conditions, succeeds at both ends on exactly
 * T's slice n - 1 + 2 x (n/128 rounded up) after the opening, within L times as
 * many slices, and the receiving memory holds exactly its words; also beside
 * units whose cells hold anything at the opening. From the opening to the success
 * both ends show the serial that is T's next.
 *
 * delivery [rounds [seed]] */
#define DRIVE_MEMORY PCL_MEMORY_MOST
#define DRIVE_MOST 0xFFFFFFFF
#include "damage.h"
#include "scenes.h"

static struct { uint32_t n, units, t, r, master, cycle; bool silo, busy, damaged; } trial;
static uint32_t from, to;       /* the first word of both stretches */
static unsigned long long messages, slices;

static void must(bool holds, const char *what)
{
    if (holds)
        return;
    printf("delivery: n = %u, %s, %s, %s: %s\n", (unsigned)trial.n, trial.silo ? "address silo" : "counter",
           trial.t == trial.r ? "to itself" : "to another",
           trial.damaged ? "others damaged" : trial.busy ? "others busy" : "others quiet", what);
    exit(1);
}

static uint32_t t_address(void) { return trial.t + 1; }
static uint32_t last_slice(void) { return trial.n - 1 + 2 * ((trial.n + 127) / 128); }

/* The address that the master gives next. */
static uint32_t next_address(void)
{
    const struct second_master *m = &l.unit[trial.master].master;

    return m->automatic ? m->counter : m->silo.address[m->silo.first];
}

/* 20 to 50 addresses of transmitters and of nobody, T's among them, no two neighbours equal. */
static void start_silo(void)
{
    uint32_t last = 0, first = t_address();

    trial.cycle = 20 + below(31);
    for (uint32_t i = 0; i < trial.cycle; i++) {
        uint32_t address = i == 0 ? first : below(once_in(9) ? 32 : trial.units + 1);

        while (i > 0 && (address == last || (i + 1 == trial.cycle && address == first)))
            address = (address + 1) % 32;
        call_write_byte(trial.master, PCL_TMMR, address);
        last = address;
    }
    must(call_write_byte(trial.master, PCL_TMMR + 1, PCL_TMMR_MASTER >> 8) == PCL_DONE, "the address silo did not start");
}

static uint32_t extended(uint32_t word) { return (word >> 15) << 4; }

/* Two stretches of n words short of byte 777776, not overlapping in a shared memory. */
static void place_stretches(void)
{
    uint32_t room = PCL_MEMORY_MOST - 1 - trial.n;

    do {
        from = below(room + 1);
        to = once_in(4) ? room : below(room + 1);
    } while (trial.t == trial.r && (from < to ? to - from : from - to) < trial.n);
}

/* A fitted link with a master that has T in its cycle. */
static void set_up(void)
{
    fit_units(trial.units, trial.cycle = trial.units + below(32 - trial.units));
    take_mastership(trial.master);
    if (trial.silo)
        start_silo();
}

/* T and R set up by their hosts, as after a fit or after another message; the
 * next slice of T's is the opening. */
static void begin_trial(void)
{
    uint32_t bytes_left = 2 * (once_in(3) ? 32768 : trial.n + below(32769 - trial.n));

    place_stretches();
    call_write(trial.r, PCL_RSR, 0);
    call_write(trial.r, PCL_RDBA, 2 * to & 0xFFFF);
    call_write(trial.r, PCL_RDBC, -bytes_left & 0xFFFF);
    call_write(trial.r, PCL_RCR, PCL_RCR_RC_NPR | BOTH_COMMANDS | extended(to) | perhaps(PCL_RCR_IE, 2));
    call_write(trial.t, PCL_TSR, 0);
    call_write(trial.t, PCL_TSBA, 2 * from & 0xFFFF);
    call_write(trial.t, PCL_TSBC, -2 * trial.n & 0xFFFF);
    call_write(trial.t, PCL_TCR, PCL_TCR_DESTINATION(receiver_of(trial.r)) | PCL_TCR_TX_NPR | BOTH_COMMANDS | extended(from)
               | perhaps(PCL_TCR_IE, 2));
}

/* What any other unit may do: anything at its own registers, but nothing that
 * touches the mastership where it is the master. */
static void bystander_call(uint32_t u)
{
    bool master = u == trial.master;

    switch (below(12)) {
    case 0: if (!master) write_transmitter_command(u); break;
    case 1: write_receiver_command(u); break;
    case 2: write_status(u, once_in(2) ? PCL_TSR : PCL_RSR); break;
    case 3: if (!master) write_master(u); break;
    case 4: if (!master && once_in(20)) load_addresses(u); break;
    case 5: write_count(u); break;
    case 6: write_address(u); break;
    case 7: call_period(u); break;
    case 8: if (!master && once_in(20)) call_reset(u); break;
    case 9: if (is_idle(&l.unit[u].receiver.side)) begin_receiving(u); break;
    default: if (is_idle(&l.unit[u].transmitter.side)) begin_sending(u, fitted_unit()); break;
    }
}

/* What is allowed anywhere, T and R included, and calls that are refused. */
static void harmless_call(uint32_t u)
{
    switch (below(5)) {
    case 0: call_read(u, 2 * below(14)); break;
    case 1: call_level(u, below(2)); break;
    case 2: call_serial(u, below(2)); break;
    case 3: must(call_slice(any_word(), 2 + below(9)) == PCL_BAD_SETUP, "a parity mask above 1 is taken"); break;
    default: must(pcl_slice(cells, below((uint32_t)PCL_CELLS(l.units)), 0, 0) == PCL_BAD_ROOM, "too little room is taken"); break;
    }
}

static void others(bool opened)
{
    uint32_t u = fitted_unit();

    if (once_in(50))
        harmless_call(u);
    if (!trial.busy || u == trial.t || u == trial.r || !opened)
        return;
    if (once_in(8))
        bystander_call(u);
    call_move(u, below(2), PCL_MEMORY_MOST);
    if (takes_words(&l.unit[u].transmitter) && once_in(3))
        call_write(u, PCL_TSDB, any_word());
}

static void move_all(uint32_t u, uint32_t side)
{
    while (pcl_number(call_move(u, side, PCL_MEMORY_MOST)) == PCL_DONE)
        ;
}

/* One slice; before one of T's, both ends have moved until 4, and it is not damaged. */
static uint32_t one_slice(bool opened)
{
    bool own = next_address() == t_address();

    others(opened);
    if (own || once_in(9)) {
        move_all(trial.t, PCL_TRANSMITTER);
        move_all(trial.r, PCL_RECEIVER);
    }
    slices++;
    return own || !trial.busy ? call_slice(0, 0) : call_slice(perhaps(any_word(), 20), perhaps(1, 20));
}

/* A and B of T's slice i after the opening: the words, after each 128 of them a
 * CRC that is taken and then judged, and so the last CRC. */
static uint32_t codes_at(uint32_t i)
{
    uint32_t last = last_slice(), in_block = i % 130;

    if (i + 1 >= last)
        return i == last ? 15 : 7;
    return in_block == 128 ? 6 : 14;            /* A + 4 B */
}

static uint32_t status(uint32_t unit, uint32_t offset) { return pcl_value(pcl_read(cells, PCL_CELLS_MOST, unit, offset)); }

static uint16_t serial_of_t(void) { return (uint16_t)pcl_value(pcl_serial(cells, PCL_CELLS_MOST, trial.t, PCL_TRANSMITTER)); }

static bool both_show(uint16_t serial)
{
    return serial_of_t() == serial && pcl_serial(cells, PCL_CELLS_MOST, trial.r, PCL_RECEIVER) == (uint32_t)serial << 16;
}

/* Whatever the cells of the other units hold, but for their addresses: it is T that has T's. */
static void damage_others(void)
{
    for (uint32_t u = 0; u < l.units; u++)
        if (u != trial.t && u != trial.r && u != trial.master && !once_in(4))
            damage_unit(u, 2);
}

static void run_message(void)
{
    uint32_t own = 0, after = 0, answer;
    uint16_t serial = (uint16_t)(serial_of_t() + 1);

    do {
        if (trial.damaged && next_address() == t_address())
            damage_others();
        answer = one_slice(false);
    } while (pcl_address(answer) != t_address());
    must(pcl_value(answer) >> 5 == 14, "not opened");
    while (own < last_slice()) {
        must(!(status(trial.t, PCL_TSR) & 0x80B0) && !(status(trial.r, PCL_RSR) & 0x80A0), "a status bit before the end");
        must(both_show(serial), "another serial before the end");
        answer = one_slice(true);
        must(++after <= trial.cycle * last_slice(), "not within L times as many slices");
        if (pcl_address(answer) != t_address())
            continue;
        own++;
        must(pcl_value(answer) >> 5 == codes_at(own), "other codes than a message has");
    }
    must((status(trial.t, PCL_TSR) & 0x80B0) == PCL_TSR_SUC_TXF, "no success at T");
    must((status(trial.r, PCL_RSR) & 0x80B0) == PCL_RSR_SUC_TXF, "no success at R");
    must(both_show(serial), "another serial at success");
}

static void deliver(void)
{
    static uint16_t wanted[PCL_MEMORY_MOST], kept[PCL_MEMORY_MOST];

    begin_trial();
    for (uint32_t i = 0; i < trial.n; i++)
        memory[trial.t][from + i] = memory_of_second[trial.t][from + i] = any_word();
    memcpy(wanted, memory[trial.r], sizeof wanted);
    memcpy(wanted + to, memory[trial.t] + from, trial.n * sizeof wanted[0]);
    memcpy(kept, memory[trial.t], sizeof kept);
    run_message();
    must(!memcmp(memory[trial.r], wanted, sizeof wanted), "the receiving memory");
    must(trial.t == trial.r || !memcmp(memory[trial.t], kept, sizeof kept), "the sending memory");
    look_everywhere("a message's end");
    messages++;
}

int main(int count, char **arguments)
{
    static const uint32_t lengths[] = { 1, 2, 63, 64, 65, 127, 128, 129, 255, 256, 257, 5000, 32768 };
    unsigned rounds = count > 1 ? (unsigned)strtoul(arguments[1], NULL, 10) : 1;

    seed = count > 2 ? strtoull(arguments[2], NULL, 10) : 1;
    forget_both();
    for (uint32_t i = 0; i < PCL_MEMORY_MOST; i++)
        for (uint32_t unit = 0; unit < PCL_UNITS_MOST; unit++)
            memory[unit][i] = memory_of_second[unit][i] = any_word();
    depth = ANSWERS;
    for (unsigned i = 0; i < rounds * 8 * sizeof lengths / sizeof lengths[0]; i++) {
        trial.n = lengths[i / 8 % (sizeof lengths / sizeof lengths[0])];
        trial.silo = i & 1;
        trial.busy = i & 2;
        trial.damaged = trial.busy && once_in(2);
        trial.units = trial.busy ? 3 + below(14) : 2;
        trial.t = below(trial.units);
        trial.r = i & 4 ? trial.t : (trial.t + 1 + below(trial.units - 1)) % trial.units;
        trial.master = below(trial.units);
        set_up();
        deliver();
        if (!trial.busy)
            deliver();                          /* once more, behind another message */
    }
    printf("delivery: %llu messages exact in slice and word, %llu slices\n", messages, slices);
    return 0;
}
