/*
 * Guests in processes of their own, half of them 32-bit programs and half with rings of two pages, that share their
 * ring pages with this host, which has the C helper. Whoever has nothing to do sleeps until it is notified. So a
 * wake-up that is lost leaves both sides asleep, and the host's patience runs out.
 *
 *     processes GUEST32 GUEST64 WAY PORTS [DEAF]
 *
 * The programs, of guest.c; "copies" or "pages", the way in which rings are lent; the ports that guests are on, a digit
 * to each; and a port whose notifications get lost.
 */
#include <kernelharp_host.h>

#include <errno.h>
#include <fcntl.h>
#include <poll.h>
#include <sys/wait.h>

#include "due.h"
#include "guest.h"
#include "test.h"

typedef struct {
    pid_t process; /* 0: there is none on the port */
    int wake;
    uint32_t taken;
} neighbour;

static kh_host backend;
static neighbour guests[KH_PORTS];
static uint8_t *pages;
static uint32_t deaf = KH_PORTS;
static unsigned long bells, notifications, listed;

/* ---- the guests' processes */

static void make_pipe(int ends[2]) {
    if (pipe(ends) != 0 || fcntl(ends[0], F_SETFD, FD_CLOEXEC) != 0 || fcntl(ends[1], F_SETFD, FD_CLOEXEC) != 0)
        abort();
}

/* In the new process: the files named go along, all others stay behind. */
static void become_guest(const char *program, uint32_t port, const int *files) {
    char text[4][16];
    snprintf(text[0], sizeof text[0], "%u", (unsigned)port);
    for (int i = 0; i < 3; i++) {
        fcntl(files[i], F_SETFD, 0);
        snprintf(text[1 + i], sizeof text[1 + i], "%d", files[i]);
    }
    execl(program, program, text[0], text[1], text[2], text[3], (char *)NULL);
    _exit(127);
}

static void start_guest(const char *program, uint32_t port, int file, int bell) {
    int wake[2];
    make_pipe(wake);
    guests[port].process = fork();
    if (guests[port].process == 0)
        become_guest(program, port, (int[]){file, wake[0], bell});
    close(wake[0]);
    guests[port].wake = wake[1];
}

static void end_guest(uint32_t port) {
    int status;
    close(guests[port].wake);
    if (running.failures > 0)
        kill(guests[port].process, SIGKILL);
    CHECK_EQ(waitpid(guests[port].process, &status, 0), guests[port].process);
    CHECK_EQ(status, 0);
}

/* A guest that has the last of its responses may be gone. */
static void notify_guest(uint32_t port) {
    notifications++;
    if (port != deaf)
        CHECK(write(guests[port].wake, "", 1) == 1 || errno == EPIPE);
}

/* ---- the host */

static kh_turned plans[KH_PORTS * KH_TAGS];
static uint32_t in_flight;

static void open_port(uint32_t port) {
    shape ring = {guest_of[port].is_32_bit ? KH_BITS32 : KH_BITS64, guest_of[port].pages};
    uint8_t *first = pages + KH_RING_BYTES * port, *grants = kh_host_grants(&backend, port);
    void *live[KH_RING_PAGES] = {first, first + KH_PAGE_BYTES};
    sheet s = sheet_for(ring, disk_nodes[guest_of[port].disk]);
    memset(grants, KH_GRANT_READ_WRITE, 16);
    grants[FRAME_TO_READ] = KH_GRANT_READ;
    CHECK_EQ(kh_host_open(&backend, port, s.bytes, s.length, live), KH_OK);
}

/* Ends one of the plans in flight, not the oldest first. */
static void complete_one(void) {
    uint32_t i = notifications % in_flight;
    kh_turned ended = plans[i];
    bool notify = false;
    plans[i] = plans[--in_flight];
    int32_t result = result_of(ended.port, ended.plan.serial);
    CHECK_EQ(kh_host_complete(&backend, ended.port, ended.plan.tag, ended.plan.serial, result, &notify), KH_OK);
    if (notify)
        notify_guest(ended.port);
}

/* Ends all plans in flight of a port, in one call. */
static void complete_port(uint32_t port) {
    uint64_t entries[KH_ENTRY_WORDS * KH_ENTRIES];
    uint32_t count = 0, left = 0;
    bool notify = false;
    for (uint32_t i = 0; i < in_flight; i++) {
        const kh_plan *plan = &plans[i].plan;
        if (plans[i].port == port)
            kh_write_entry(entries, count++, plan->tag, plan->serial, result_of(port, plan->serial));
        else
            plans[left++] = plans[i];
    }
    in_flight = left;
    CHECK_EQ(kh_host_complete_many(&backend, port, entries, count, &notify), KH_OK);
    listed += count;
    if (notify)
        notify_guest(port);
}

/* Turns until one is idle, with completions in between; then all the rest of them, port by port. */
static void serve(void) {
    kh_turned turned;
    while ((turned = kh_host_turn(&backend)).kind != KH_IDLE && running.failures == 0) {
        check_taken(&turned, guests[turned.port].taken++);
        if (turned.kind == KH_STARTED)
            plans[in_flight++] = turned;
        if (turned.notify)
            notify_guest(turned.port);
        if (in_flight > 0 && guests[turned.port].taken % 3 == 0)
            complete_one();
    }
    while (in_flight > 0 && running.failures == 0)
        complete_port(plans[bells % in_flight].port);
}

/* False: all guests have ended, or the patience. */
static bool sleep_until_notified(int bell, uint8_t *names, size_t *count) {
    struct pollfd file = {.fd = bell, .events = POLLIN};
    int ready = poll(&file, 1, deaf < KH_PORTS ? 1000 : 20000);
    CHECK(ready > 0);
    ssize_t heard = ready > 0 ? read(bell, names, *count) : 0;
    *count = heard > 0 ? (size_t)heard : 0;
    return heard > 0;
}

static void run_host(int bell) {
    uint8_t names[256];
    size_t count = sizeof names;
    while (running.failures == 0 && sleep_until_notified(bell, names, &count)) {
        for (size_t i = 0; i < count; i++)
            if (kh_host_counters(&backend, names[i]).opens == 0)
                open_port(names[i]);
        bells += count;
        count = sizeof names;
        serve();
    }
}

/* ---- the run */

static void check_end(void) {
    for (uint32_t port = 0; port < KH_PORTS; port++) {
        if (guests[port].process == 0)
            continue;
        end_guest(port);
        CHECK_EQ(guests[port].taken, MOST_REQUESTS);
        CHECK_EQ(get(pages + KH_RING_BYTES * port + KH_RSP_PROD, 4), MOST_REQUESTS);
        CHECK_EQ(kh_host_close(&backend, port), KH_OK);
    }
}

static void start_guests(char **programs, const char *on, int file, int bell) {
    for (; *on != '\0'; on++) {
        uint32_t port = (uint32_t)(*on - '0') % KH_PORTS;
        start_guest(programs[guest_of[port].is_32_bit ? 0 : 1], port, file, bell);
    }
}

int main(int words, char **word) {
    FILE *file = tmpfile();
    int bell[2];
    if (words < 5 || file == NULL || ftruncate(fileno(file), KH_RINGS_BYTES) != 0)
        return 2;
    if (words > 5)
        deaf = (uint32_t)atoi(word[5]);
    running.name = "guests_in_processes";
    pages = (uint8_t *)mmap(NULL, KH_RINGS_BYTES, PROT_READ | PROT_WRITE, MAP_SHARED, fileno(file), 0);
    if (pages == MAP_FAILED ||
        !(strcmp(word[3], "pages") == 0 ? kh_host_init_pages(&backend, pages) : kh_host_init(&backend)))
        return 2;
    signal(SIGPIPE, SIG_IGN);
    make_pipe(bell);
    start_guests(word + 1, word[4], fileno(file), bell[1]);
    close(bell[1]);
    run_host(bell[0]);
    check_end();
    CHECK(listed > 0);
    printf(
        "     %d requests of %d kinds by each guest, %d wraps or %d, %lu of all completed in lists: the host notified "
        "%lu times, guests %lu\n",
        MOST_REQUESTS, KINDS, MOST_REQUESTS / KH_PAGE_SLOTS, MOST_REQUESTS / KH_TAGS, listed, bells, notifications);
    return running.failures != 0;
}
