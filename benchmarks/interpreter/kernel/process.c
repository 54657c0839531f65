/* Processes: how they begin, take turns, wait and end. */
#include "kernel.h"

struct process processes[PROCESSES], *current = processes; /* the first is the kernel's own, which idles */
static u64 last_number;

static struct process *next_ready(void)
{
    for (u64 i = 1; i <= PROCESSES; i++) {
        struct process *process = &processes[(current - processes + i) % PROCESSES];
        if (process != processes && process->state == READY)
            return process;
    }
    return processes;
}

/* Lets the next process run, with interrupts off; comes back when it is this one's turn again. */
void schedule(void)
{
    struct process *from = current, *to = next_ready();
    if (from == to)
        return;
    counts.switches++;
    current = to;
    enter_space(to);
    switch_context(&from->stack_pointer, &to->stack_pointer);
}

void wake_sleepers(void)
{
    for (struct process *process = processes; process < processes + PROCESSES; process++)
        if (process->state == SLEEPING && process->wake <= counts.ticks)
            process->state = READY;
}

/* A process that begins by leaving a trap, and the frame for that. */
static struct frame *new_process(struct process **made, const struct program *program)
{
    struct process *process = processes + 1;
    while (process->state != FREE)
        if (++process == processes + PROCESSES)
            shut_down(102);
    process->stack = new_frame();
    process->root = new_root();
    process->program = program;
    process->number = ++last_number;
    process->parent = current->number;
    process->hand = USER_BASE;
    process->state = READY;
    for (u32 i = 0; i < SHARES; i++)
        process->shares[i] = 0;
    struct frame *frame = (struct frame *)((u64)process->stack + PAGE) - 1;
    u64 *context = (u64 *)frame - 14; /* of switch_context: ra and s0 to s11 */
    context[0] = (u64)trap_exit;
    process->stack_pointer = (u64)context;
    *made = process;
    return frame;
}

/* Begins a program; its number. */
u64 spawn(u64 program)
{
    struct process *process;
    struct frame *frame = new_process(&process, programs[program]);
    process->break_ = programs[program]->bss_end;
    frame->x[2] = USER_END;
    frame->epc = USER_BASE + sizeof(struct program);
    frame->status = SPIE;
    return process->number;
}

/* Doubles the process, which has come here with this frame; the number of its child. */
u64 fork_process(const struct frame *frame)
{
    struct process *child;
    struct frame *copy = new_process(&child, current->program);
    child->break_ = current->break_;
    copy_space(current, child);
    *copy = *frame;
    copy->x[A0] = 0;
    return child->number;
}

static struct process *numbered(u64 number)
{
    struct process *process = processes;
    while (process->number != number || process->state == FREE)
        process++;
    return process;
}

/* Ends the process at hand; with the first one the run ends. */
void end_process(u64 status)
{
    if (current->number == 1)
        shut_down(status);
    current->status = status;
    current->state = ENDED;
    struct process *parent = numbered(current->parent);
    if (parent->state == WAITING)
        parent->state = READY;
    schedule();
}

static u64 reap(struct process *child, u64 *status)
{
    *status = child->status;
    drop_space(child);
    drop_frame(physical(child->stack));
    child->state = FREE;
    return child->number;
}

/* Waits until a child has ended; its number, 0 where there is no child. */
u64 wait_for_child(u64 *status)
{
    for (;;) {
        int any = 0;
        for (struct process *process = processes + 1; process < processes + PROCESSES; process++) {
            if (process->state == FREE || process->parent != current->number)
                continue;
            if (process->state == ENDED)
                return reap(process, status);
            any = 1;
        }
        if (!any)
            return 0;
        current->state = WAITING;
        schedule();
    }
}

void sleep_ticks(u64 ticks)
{
    current->wake = counts.ticks + ticks;
    current->state = SLEEPING;
    schedule();
}
