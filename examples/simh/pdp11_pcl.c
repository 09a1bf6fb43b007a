/* pdp11_pcl.c: the PCL11-B for the PDP-11 of SIMH 3.8, over pcl.h

   pcl          PCL11-B

   Each simulator is one machine. The cells of the link stand in a file that all of
   them have mapped, and a call is made only under the file's lock: so the calls come
   one after the other, as pcl.h asks. A move is lent the machine's own memory, so
   that each simulator moves its own words. One of them fits the link and clocks the
   slices.

        SET PCL ENABLE
        SET PCL UNITS=2         how many machines there will be, for the one that clocks
        SET PCL UNIT=0          which of them this is
        SET PCL CLOCK           this one makes the file, fits the link and clocks the slices
        SET PCL TRACE=file      every call into file and file.lines, as pcl_trace.h has it;
                                all simulators may name the same one
        ATTACH PCL file         on the link; first the one that clocks

   Unit u has the addresses u + 1 on the bus, for its transmitter and its receiver, and
   the counter goes over the units. The machine has a Unibus without a map, as the
   11/34 or the 11/40: with one, a move would have to be lent the mapped memory.

   What is to be added to SIMH's own files, as examples/simh/run does:

        PDP11/pdp11_sys.c       extern DEVICE pcl_dev;          with the other devices
                                &pcl_dev,                       in the table sim_devices
        makefile                ${PDP11D}/pdp11_pcl.c ${PDP11D}/pcl_trace.c     in PDP11
                                libpcl.a                        in LDFLAGS */

#include "pdp11_defs.h"
#include <fcntl.h>
#include <sys/file.h>
#include <sys/mman.h>
#include <unistd.h>
#include "pcl_trace.h"

extern int32 int_req[IPL_HLVL];
extern uint16 *M;
extern UNIT cpu_unit;
extern int32 cpu_opt;

/* The manual's addresses, vectors and priority. The two bits of BR5 are ones that no
   other device has; the transmitter's comes first, being closer to the processor. */

#define IOBA_PCL        (IOPAGEBASE + (PCL_UNIBUS_TRANSMITTER & IOPAGEMASK))
#define IOLN_PCL        (2 * PCL_UNIBUS_ROOM)           /* both sides */
#define VEC_PCLT        PCL_VECTOR_TRANSMITTER          /* the receiver's is the next */
#define IPL_PCLT        PCL_PRIORITY
#define IPL_PCLR        PCL_PRIORITY
#define INT_V_PCLT      28
#define INT_V_PCLR      29
#define INT_PCLT        (1u << INT_V_PCLT)
#define INT_PCLR        (1u << INT_V_PCLR)

/* Time goes by slices, of 2 microseconds each, whatever else the computer does. A
   period is 1 second, which gives TIM OUT after 1 to 2 seconds. */

#define PERIOD_SLICES   500000u

/* What the simulators share. */

struct shared {
    uint32              layout;                         /* of the cells; 0 until the link is fitted */
    uint32              units;
    uint32              memory_words;                   /* of every machine */
    uint32              slices;                         /* since the fit */
    uint16_t            cells[PCL_CELLS_MOST];
    };

static struct shared *shared;                           /* null where not attached */
static int shared_file = -1;
static FILE *trace_records, *trace_lines;

static int32 pcl_units = 2;
static int32 pcl_unit_here = 0;
static int32 pcl_clock = 0;
static int32 pcl_time = 50;                             /* instructions between two services */
static uint32 last_period;                              /* the slice of it */

static t_stat pcl_rd (int32 *data, int32 addr, int32 access);
static t_stat pcl_wr (int32 data, int32 addr, int32 access);
static t_stat pcl_svc (UNIT *uptr);
static t_stat pcl_dev_reset (DEVICE *dptr);
static t_stat pcl_attach (UNIT *uptr, char *cptr);
static t_stat pcl_detach (UNIT *uptr);
static t_stat pcl_set_number (UNIT *uptr, int32 val, char *cptr, void *desc);
static t_stat pcl_set_clock (UNIT *uptr, int32 val, char *cptr, void *desc);
static t_stat pcl_set_trace (UNIT *uptr, int32 val, char *cptr, void *desc);
static t_stat pcl_show (FILE *st, UNIT *uptr, int32 val, void *desc);

static DIB pcl_dib = {
    IOBA_PCL, IOLN_PCL, &pcl_rd, &pcl_wr, 2, IVCL (PCLT), VEC_PCLT, { NULL, NULL }
    };

static UNIT pcl_unit = { UDATA (&pcl_svc, UNIT_ATTABLE, 0) };

static REG pcl_reg[] = {
    { DRDATA (UNITS, pcl_units, 8), PV_LEFT + REG_RO },
    { DRDATA (UNIT, pcl_unit_here, 8), PV_LEFT + REG_RO },
    { FLDATA (CLOCK, pcl_clock, 0), REG_RO },
    { FLDATA (INTT, IREQ (PCLT), INT_V_PCLT) },
    { FLDATA (INTR, IREQ (PCLR), INT_V_PCLR) },
    { DRDATA (TIME, pcl_time, 24), PV_LEFT + REG_NZ },
    { NULL }
    };

static MTAB pcl_mod[] = {
    { MTAB_XTD|MTAB_VDV, 0, "LINK", NULL, NULL, &pcl_show, NULL },
    { MTAB_XTD|MTAB_VDV, 0, NULL, "UNIT", &pcl_set_number, NULL, (void *) &pcl_unit_here },
    { MTAB_XTD|MTAB_VDV, 1, NULL, "UNITS", &pcl_set_number, NULL, (void *) &pcl_units },
    { MTAB_XTD|MTAB_VDV, 1, NULL, "CLOCK", &pcl_set_clock, NULL, NULL },
    { MTAB_XTD|MTAB_VDV, 0, NULL, "NOCLOCK", &pcl_set_clock, NULL, NULL },
    { MTAB_XTD|MTAB_VDV|MTAB_NC, 0, NULL, "TRACE", &pcl_set_trace, NULL, NULL },
    { MTAB_XTD|MTAB_VDV, IOLN_PCL, "ADDRESS", "ADDRESS", &set_addr, &show_addr, NULL },
    { MTAB_XTD|MTAB_VDV, 0, "VECTOR", "VECTOR", &set_vec, &show_vec, NULL },
    { 0 }
    };

DEVICE pcl_dev = {
    "PCL", &pcl_unit, pcl_reg, pcl_mod,
    1, 8, 16, 2, 8, 16,
    NULL, NULL, &pcl_dev_reset,
    NULL, &pcl_attach, &pcl_detach,
    &pcl_dib, DEV_DISABLE | DEV_DIS | DEV_UBUS
    };

/* The lock. It is given back by the system where a simulator ends while it has it. */

static void take_link (void)
{
while (flock (shared_file, LOCK_EX) != 0)               /* a signal may interrupt it */
    ;
}

static void leave_link (void)
{
flock (shared_file, LOCK_UN);
}

/* Interrupts are levels. SIMH clears a request when it takes the interrupt, so the
   level is asked again after every access and in every service. */

static void ask_levels (void)
{
size_t length = PCL_CELLS (shared->units);

if (pcl_value (pcl_level (shared->cells, length, pcl_unit_here, PCL_TRANSMITTER)))
    SET_INT (PCLT);
else CLR_INT (PCLT);
if (pcl_value (pcl_level (shared->cells, length, pcl_unit_here, PCL_RECEIVER)))
    SET_INT (PCLR);
else CLR_INT (PCLR);
}

/* The link's offset for an address. The manual's 3.2.7 has RDCRC at 28, 764234, where
   the link has no register; the link has RDCRC at 26, where the manual has none. */

#define MANUAL_RDCRC    28

static uint32 offset_of (int32 addr)
{
uint32 offset = addr & (IOLN_PCL - 1), half = offset & 1;

switch (offset - half) {
case MANUAL_RDCRC:
    return PCL_RDCRC + half;
case PCL_RDCRC:
    return MANUAL_RDCRC + half;
default:
    return offset;
    }
}

/* A program's accesses. Every address of the device answers: where there is no register
   a read gives zeros and a write has no effect, as the manual's 3.2.7 has it. */

static t_stat pcl_rd (int32 *data, int32 addr, int32 access)
{
uint16_t copy[PCL_CELLS_MOST], *cells;

if (shared == NULL)
    return SCPE_NXM;
take_link ();
cells = shared->cells;
if (access == READC) {                                  /* the console only looks: */
    memcpy (copy, cells, sizeof copy);                  /* no word is taken out of a silo */
    cells = copy;
    }
*data = pcl_value (pcl_read (cells, PCL_CELLS (shared->units), pcl_unit_here, offset_of (addr) & ~1u));
ask_levels ();
leave_link ();
return SCPE_OK;
}

static t_stat pcl_wr (int32 data, int32 addr, int32 access)
{
uint32 offset = offset_of (addr);

if (shared == NULL)
    return SCPE_NXM;
take_link ();
if (access == WRITEB)
    pcl_write_byte (shared->cells, PCL_CELLS (shared->units), pcl_unit_here, offset, (uint8_t) data);
else pcl_write (shared->cells, PCL_CELLS (shared->units), pcl_unit_here, offset & ~1u, (uint16_t) data);
ask_levels ();
leave_link ();
return SCPE_OK;
}

/* The service routine: a slice, if this simulator clocks; then this machine's words. */

static void move_words (uint32 side)
{
pcl_move_all (shared->cells, PCL_CELLS (shared->units), M, shared->memory_words, pcl_unit_here, side);
}

static void pass_time (void)
{
if (shared->slices - last_period >= PERIOD_SLICES) {
    last_period = shared->slices;
    pcl_period (shared->cells, PCL_CELLS (shared->units), pcl_unit_here);
    }
}

static t_stat pcl_svc (UNIT *uptr)
{
take_link ();
if (pcl_clock) {
    pcl_slice (shared->cells, PCL_CELLS (shared->units), 0, 0);
    shared->slices++;
    }
move_words (PCL_TRANSMITTER);
move_words (PCL_RECEIVER);
pass_time ();
ask_levels ();
leave_link ();
sim_activate (uptr, pcl_time);
return SCPE_OK;
}

/* RESET, RUN and BOOT. It takes MASTER from this unit: a program sets it again. */

static t_stat pcl_dev_reset (DEVICE *dptr)
{
CLR_INT (PCLT);
CLR_INT (PCLR);
sim_cancel (&pcl_unit);
if (shared == NULL)
    return SCPE_OK;
take_link ();
pcl_reset (shared->cells, PCL_CELLS (shared->units), pcl_unit_here);
leave_link ();
sim_activate (&pcl_unit, pcl_time);
return SCPE_OK;
}

/* On the link. What is not memory is the I/O page. */

static uint32 memory_words_here (void)
{
return ((MEMSIZE < UNIMEMSIZE - IOPAGESIZE)? MEMSIZE: UNIMEMSIZE - IOPAGESIZE) >> 1;
}

static void start_trace (void)
{
if (trace_records)
    pcl_trace_start (shared->cells, trace_records, trace_lines);
}

static t_bool fit_link (void)
{
uint32_t setup[PCL_SETUP (PCL_UNITS_MOST)];
int32 u;

for (u = 0; u < pcl_units; u++) {
    setup[4 * u] = setup[4 * u + 1] = u + 1;
    setup[4 * u + 2] = (pcl_units < 2)? 2: pcl_units;
    setup[4 * u + 3] = memory_words_here ();
    }
shared->units = pcl_units;
shared->memory_words = memory_words_here ();
shared->slices = 0;
if (pcl_number (pcl_fit (shared->cells, PCL_CELLS_MOST, setup, PCL_SETUP (pcl_units))) != PCL_DONE)
    return FALSE;
shared->layout = PCL_LAYOUT;
return TRUE;
}

/* Another simulator's link: of this layout, with a place for this unit, and not beyond this memory. */

static t_bool fits_here (void)
{
return (shared->layout == PCL_LAYOUT) && (pcl_unit_here < (int32) shared->units) &&
    (memory_words_here () >= shared->memory_words);
}

static t_stat map_file (const char *name)
{
shared_file = open (name, pcl_clock? O_RDWR|O_CREAT|O_TRUNC: O_RDWR, 0600);
if (shared_file < 0)
    return SCPE_OPENERR;
if (pcl_clock && (ftruncate (shared_file, sizeof *shared) != 0))
    return SCPE_IOERR;
if (lseek (shared_file, 0, SEEK_END) != (off_t) sizeof *shared)
    return SCPE_FMT;
shared = mmap (NULL, sizeof *shared, PROT_READ|PROT_WRITE, MAP_SHARED, shared_file, 0);
if (shared == MAP_FAILED) {
    shared = NULL;
    return SCPE_MEM;
    }
return SCPE_OK;
}

static void leave_file (void)
{
if (shared)
    munmap (shared, sizeof *shared);
if (shared_file >= 0)
    close (shared_file);
shared = NULL;
shared_file = -1;
}

static t_stat pcl_attach (UNIT *uptr, char *cptr)
{
t_stat r;
t_bool ready;

if (cpu_opt & OPT_UBM)                                  /* see above */
    return SCPE_NOFNC;
if (shared)
    pcl_detach (uptr);
r = map_file (cptr);
if (r != SCPE_OK) {
    leave_file ();
    return r;
    }
take_link ();
start_trace ();
ready = pcl_clock? fit_link (): fits_here ();
leave_link ();
if (!ready) {
    pcl_trace_end ();
    leave_file ();
    return SCPE_INCOMP;
    }
uptr->filename = strcpy (calloc (strlen (cptr) + 1, 1), cptr);
uptr->flags = uptr->flags | UNIT_ATT;
last_period = shared->slices;
sim_activate (&pcl_unit, pcl_time);
return SCPE_OK;
}

static t_stat pcl_detach (UNIT *uptr)
{
if (!(uptr->flags & UNIT_ATT))
    return SCPE_OK;
sim_cancel (uptr);
CLR_INT (PCLT);
CLR_INT (PCLR);
leave_file ();
free (uptr->filename);
uptr->filename = NULL;
uptr->flags = uptr->flags & ~UNIT_ATT;
return (pcl_trace_end () == 0)? SCPE_OK: SCPE_IOERR;
}

/* SET and SHOW */

static t_stat pcl_set_number (UNIT *uptr, int32 val, char *cptr, void *desc)
{
t_stat r;
int32 number;

if (shared)
    return SCPE_ALATT;
if (cptr == NULL)
    return SCPE_ARG;
number = (int32) get_uint (cptr, 10, PCL_UNITS_MOST - 1 + val, &r);
if ((r != SCPE_OK) || (number < val))                   /* a unit from 0 on, units from 1 on */
    return SCPE_ARG;
*((int32 *) desc) = number;
return SCPE_OK;
}

static t_stat pcl_set_clock (UNIT *uptr, int32 val, char *cptr, void *desc)
{
if (shared)
    return SCPE_ALATT;
pcl_clock = val;
return SCPE_OK;
}

/* Nothing is buffered, and each record is one write to the end: so those of several
   simulators stand in the order of the lock. */

static FILE *open_trace (const char *name)
{
FILE *file = fopen (name, "ab");

if (file)
    setvbuf (file, NULL, _IONBF, 0);
return file;
}

static t_stat pcl_set_trace (UNIT *uptr, int32 val, char *cptr, void *desc)
{
char name[CBUFSIZE + 8];

if (shared)
    return SCPE_ALATT;
if (cptr == NULL)
    return SCPE_ARG;
sprintf (name, "%s.lines", cptr);
trace_records = open_trace (cptr);
trace_lines = open_trace (name);
return (trace_records && trace_lines)? SCPE_OK: SCPE_OPENERR;
}

static t_stat pcl_show (FILE *st, UNIT *uptr, int32 val, void *desc)
{
fprintf (st, "unit %d of %d%s", pcl_unit_here, shared? (int32) shared->units: pcl_units, pcl_clock? ", clocks": "");
return SCPE_OK;
}
