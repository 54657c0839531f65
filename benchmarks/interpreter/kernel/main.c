/* The console, the traps that S takes, and the run from the first process to the last count. */
#include "kernel.h"
#include "calls.h"

enum { TIME_SLICE = 25, DATA = 0, LINE_STATUS = 5, CAN_SEND = 0x20 };

struct counts counts;
static int turn_is_over;

void put(char c)
{
    volatile u8 *uart = (volatile u8 *)DEVICES;
    while (!(uart[LINE_STATUS] & CAN_SEND))
        ;
    uart[DATA] = c;
}

void say(const char *text)
{
    while (*text)
        put(*text++);
}

static void say_number(const char *name, u64 number)
{
    char digits[20];
    u32 length = 0;
    do {
        digits[length++] = '0' + number % 10;
        number /= 10;
    } while (number);
    say(name);
    while (length)
        put(digits[--length]);
}

static void call_firmware(u64 argument, u64 which)
{
    register u64 a0 __asm__("a0") = argument;
    register u64 a7 __asm__("a7") = which;
    __asm__ volatile("ecall" : "+r"(a0) : "r"(a7) : "memory");
}

void set_timer(u64 when)
{
    call_firmware(when, 0);
}

void shut_down(u64 status)
{
    say_number("ticks ", counts.ticks);
    say_number(", switches ", counts.switches);
    say_number(", mapped ", counts.mapped);
    say_number(", aged ", counts.aged);
    say_number(", revived ", counts.revived);
    say_number(", shared ", counts.shared);
    say_number(", copied ", counts.copied);
    say_number(", killed ", counts.killed);
    say_number("\nstatus ", status);
    put('\n');
    call_firmware(status, 8);
}

/* Writes bytes of the user's to the console; how many, or -1. */
static u64 write_console(u64 from, u64 bytes)
{
    u64 part[4];
    for (u64 at = 0; at < bytes; at += sizeof part) {
        u64 length = bytes - at < sizeof part ? bytes - at : sizeof part;
        if (from + at + length > USER_END || copy_user(part, (void *)(from + at), length))
            return -1UL;
        for (u64 i = 0; i < length; i++)
            put(((char *)part)[i]);
    }
    return bytes;
}

static u64 wait_and_tell(u64 told)
{
    u64 status = 0, number = wait_for_child(&status);
    SET_CSR(sstatus, SIE);
    if (told >= USER_END || copy_user((void *)told, &status, sizeof status))
        return -1UL;
    return number;
}

/* What a call of U gives in a0. Processes are handled with interrupts off. */
static u64 answer(struct frame *frame)
{
    u64 a0 = frame->x[A0], old = current->break_, found;
    switch (frame->x[A7]) {
    case WRITE_TEXT:
        return write_console(a0, frame->x[A1]);
    case GROW:
        current->break_ += a0;
        return old;
    case SHARE:
        share_megapage(current, a0);
        return 0;
    case PEEK:
        return peek(&found, a0) ? 0 : found;
#ifdef OTHER_CHOICES
    case TAKE_MARKS:
        return take_marks(current, a0);
#endif
    }
    CLEAR_CSR(sstatus, SIE);
    switch (frame->x[A7]) {
    case END:
        end_process(a0);
        return 0;
    case YIELD:
        schedule();
        return 0;
    case FORK:
        return fork_process(frame);
    case WAIT:
        return wait_and_tell(a0);
    case SPAWN:
        return spawn(a0);
    case SLEEP:
        sleep_ticks(a0);
        return 0;
    }
    return -1UL;
}

static void kill(u64 cause)
{
    CLEAR_CSR(sstatus, SIE);
    counts.killed++;
    end_process(KILLED + cause);
}

/* An exception of the kernel itself: the copies may meet pages that are not to be had. */
static void fail_copy(struct frame *frame)
{
    u64 at = frame->epc;
    if ((at < (u64)copy_user || at >= (u64)copy_user_end) && (at < (u64)peek || at >= (u64)peek_end))
        shut_down(101);
    frame->epc = (u64)copy_failed;
}

static void handle_exception(struct frame *frame)
{
    u64 cause = frame->cause;
    if (cause == CALL_FROM_U) {
        frame->epc += 4;
        frame->x[A0] = answer(frame);
        return;
    }
    if (cause >= FETCH_PAGE_FAULT && repair(current, frame->value, cause))
        return;
    if (frame->status & SPP)
        fail_copy(frame);
    else
        kill(cause);
}

/* The timer asks for the software interrupt, which does what is less urgent. */
static void handle_interrupt(const struct frame *frame)
{
    if ((u8)frame->cause == TIMER_INTERRUPT) {
        counts.ticks++;
        set_timer(READ_CSR(time) + TIME_SLICE);
        SET_CSR(sip, SSIP);
        return;
    }
    CLEAR_CSR(sip, SSIP);
    wake_sleepers();
    turn_is_over = 1;
    if (!(frame->status & SPP))
        age(current);
}

void trap(struct frame *frame)
{
    if ((long)frame->cause < 0) {
        handle_interrupt(frame);
    } else {
        if (frame->status & SPIE)
            SET_CSR(sstatus, SIE);
        handle_exception(frame);
        CLEAR_CSR(sstatus, SIE);
    }
    if (turn_is_over && !(frame->status & SPP)) {
        turn_is_over = 0;
        schedule();
    }
}

void kernel_main(void)
{
    say("kernel\n");
    spawn(0);
    set_timer(READ_CSR(time) + TIME_SLICE);
    for (;;) {
        schedule();
        __asm__ volatile("wfi");
        SET_CSR(sstatus, SIE);
        CLEAR_CSR(sstatus, SIE);
    }
}
