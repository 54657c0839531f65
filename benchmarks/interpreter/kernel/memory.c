/* Frames of 4 KiB, the tables of Sv39, and the spaces of processes, whose pages come when they are touched. */
#include "kernel.h"

enum { READ_WRITE = READ | WRITE | MARKS, READ_EXECUTE = READ | EXECUTE | MARKS, USER_PAGE = USER | MARKS };

extern u8 kernel_start[], text_end[], rodata_end[], kernel_end[];

static u64 kernel_root[512] __attribute__((aligned(4096)));
static u64 kernel_middle[512] __attribute__((aligned(4096)));
static u64 kernel_pages[512] __attribute__((aligned(4096)));

static u64 next_frame = FRAMES;
static u64 *free_frames; /* each holds the next */
static u8 holders[FRAMES_MOST];

static u64 index_of(u64 address, u32 level)
{
    return address >> (12 + 9 * level) & 511;
}

static u64 leaf(u64 physical, u64 bits)
{
    return physical >> 12 << 10 | bits | VALID;
}

static u64 pointer(u64 physical)
{
    return leaf(physical, 0);
}

static u64 target(u64 entry)
{
    return entry >> 10 << 12;
}

/* Makes the kernel's tables while nothing is translated; what satp is to be. */
u64 map_kernel(void)
{
    kernel_root[index_of(LINEAR, 2)] = leaf(RAM, READ_WRITE | GLOBAL);
    kernel_root[index_of(KERNEL, 2)] = pointer((u64)kernel_middle);
    kernel_middle[index_of(DEVICES, 1)] = leaf(UART, READ_WRITE | GLOBAL);
    kernel_middle[index_of((u64)kernel_start + KERNEL_OFFSET, 1)] = pointer((u64)kernel_pages);
    for (u8 *page = kernel_start; page < kernel_end; page += PAGE) {
        u64 rights = page < text_end ? READ_EXECUTE : page < rodata_end ? READ | MARKS : READ_WRITE;
        kernel_pages[index_of((u64)page, 0)] = leaf((u64)page, rights | GLOBAL);
    }
    return 8UL << 60 | (u64)kernel_root >> 12;
}

/* A frame of zeros. */
u64 *new_frame(void)
{
    u64 *frame = free_frames;
    if (frame) {
        free_frames = (u64 *)*frame;
        clear_page(frame);
    } else {
        if (next_frame == FRAMES + FRAMES_MOST * PAGE)
            shut_down(100);
        frame = linear(next_frame); /* which the run has not touched yet */
        next_frame += PAGE;
    }
    holders[(physical(frame) - FRAMES) / PAGE] = 1;
    return frame;
}

/* Gives up a hold of a frame; pages of the programs are none. */
void drop_frame(u64 physical)
{
    if (physical < FRAMES || --holders[(physical - FRAMES) / PAGE])
        return;
    u64 *frame = linear(physical);
    *frame = (u64)free_frames;
    free_frames = frame;
}

/* A root that has the kernel alone. */
u64 *new_root(void)
{
    u64 *root = new_frame();
    u64 *kernel = (u64 *)((u64)kernel_root - KERNEL_OFFSET - RAM + LINEAR);
    root[index_of(LINEAR, 2)] = kernel[index_of(LINEAR, 2)];
    root[index_of(KERNEL, 2)] = kernel[index_of(KERNEL, 2)];
    return root;
}

static u64 space_number(const struct process *process)
{
    return process - processes;
}

/* Turns to a process's space; one without its own has the kernel's. */
void enter_space(const struct process *process)
{
    u64 root = process->root ? physical(process->root) : (u64)kernel_root - KERNEL_OFFSET;
    WRITE_CSR(satp, 8UL << 60 | space_number(process) << 44 | root >> 12);
}

static void forget(const struct process *process, u64 address)
{
    __asm__ volatile("sfence.vma %0, %1" : : "r"(address), "r"(space_number(process)) : "memory");
}

static void forget_all(const struct process *process)
{
    __asm__ volatile("sfence.vma zero, %0" : : "r"(space_number(process)) : "memory");
}

/* The entry of an address at a level, with the tables on the way made where that is asked for. */
static u64 *entry_of(struct process *process, u64 address, u32 level, int makes)
{
    u64 *table = process->root;
    for (u32 at = 2; at > level; at--) {
        u64 *entry = &table[index_of(address, at)];
        if (!*entry) {
            if (!makes)
                return 0;
            u64 *made = new_frame(), **kept = process->tables;
            while (*kept)
                kept++;
            *kept = made;
            *entry = pointer(physical(made));
        }
        table = linear(target(*entry));
    }
    return &table[index_of(address, level)];
}

/* What a page is mapped to when it is first touched; 0 where the program has none there. */
static u64 first_entry(const struct process *process, u64 address)
{
    const struct program *program = process->program;
    u64 copy = (u64)program - KERNEL_OFFSET + (address - USER_BASE) / PAGE * PAGE;
    if (address >= USER_END - STACK_PAGES * PAGE)
        return leaf(physical(new_frame()), USER_PAGE | READ_WRITE);
    if (address < USER_BASE || address >= process->break_)
        return 0;
    if (address < program->text_end)
        return leaf(copy, USER_PAGE | program->text_rights);
    if (address < program->rodata_end)
        return leaf(copy, USER_PAGE | READ);
    if (address < program->data_end)
        return leaf(copy, USER_PAGE | READ | COPIED_ON_WRITE);
    return leaf(physical(new_frame()), USER_PAGE | READ_WRITE);
}

/* Lets a process write a page that it had to read alone until now. */
static void make_own(u64 *entry)
{
    u64 old = target(*entry);
    if (old < FRAMES || holders[(old - FRAMES) / PAGE] > 1) {
        u64 *copy = new_frame();
        copy_page(copy, linear(old));
        drop_frame(old);
        *entry = leaf(physical(copy), USER_PAGE);
        counts.copied++;
    }
    *entry = (*entry & ~COPIED_ON_WRITE) | READ_WRITE;
}

static int is_mapped_here(const struct process *process, u64 address)
{
    return address < USER_END && (address < process->break_ || address >= USER_END - STACK_PAGES * PAGE);
}

/* Does what is to be done about a page fault; 0 where the access was wrong. */
u64 repair(struct process *process, u64 address, u64 cause)
{
    if (!is_mapped_here(process, address))
        return 0;
    u64 *entry = entry_of(process, address, 0, 1);
    if (!*entry) {
        *entry = first_entry(process, address);
        counts.mapped++;
    } else if (*entry & AGED) {
        *entry = (*entry & ~AGED) | VALID;
        counts.revived++;
    } else if (cause == STORE_PAGE_FAULT && *entry & COPIED_ON_WRITE) {
        make_own(entry);
    } else {
        return 0;
    }
    forget(process, address);
    if (cause == FETCH_PAGE_FAULT)
        __asm__ volatile("fence.i");
    return *entry;
}

/* Makes the next page of the program or the heap one whose next access is noticed. */
void age(struct process *process)
{
    process->hand = process->hand + PAGE < process->break_ ? process->hand + PAGE : USER_BASE;
    u64 *entry = entry_of(process, process->hand, 0, 0);
    if (entry && *entry & VALID) {
        *entry = (*entry & ~VALID) | AGED;
        forget(process, process->hand);
        counts.aged++;
    }
}

/* Maps the shared megapage at an address of the process's choice. */
void share_megapage(struct process *process, u64 address)
{
    for (u32 i = 0; i < SHARES; i++) {
        if (process->shares[i])
            continue;
        process->shares[i] = address;
        *entry_of(process, address, 1, 1) = leaf(SHARED, USER_PAGE | READ_WRITE);
        forget(process, address);
        return;
    }
}

static void copy_pages(struct process *from, struct process *to, u64 begin, u64 end)
{
    for (u64 address = begin; address < end; address += PAGE) {
        u64 *entry = entry_of(from, address, 0, 0);
        if (!entry || !*entry)
            continue;
        if (*entry & WRITE)
            *entry = (*entry & ~WRITE) | COPIED_ON_WRITE;
        if (target(*entry) >= FRAMES)
            holders[(target(*entry) - FRAMES) / PAGE]++;
        *entry_of(to, address, 0, 1) = *entry;
        counts.shared++;
    }
}

/* Gives a new process the pages of another one, which both copy when they write them. */
void copy_space(struct process *from, struct process *to)
{
    copy_pages(from, to, USER_BASE, from->break_);
    copy_pages(from, to, USER_END - STACK_PAGES * PAGE, USER_END);
    forget_all(from);
    for (u32 i = 0; i < SHARES; i++)
        if (from->shares[i])
            share_megapage(to, from->shares[i]);
}

static void drop_pages(struct process *process, u64 begin, u64 end)
{
    for (u64 address = begin; address < end; address += PAGE) {
        u64 *entry = entry_of(process, address, 0, 0);
        if (entry && *entry)
            drop_frame(target(*entry));
    }
}

/* Gives up the space of a process, which runs no more. */
void drop_space(struct process *process)
{
    drop_pages(process, USER_BASE, process->break_);
    drop_pages(process, USER_END - STACK_PAGES * PAGE, USER_END);
    for (u32 i = 0; i < TABLES; i++) {
        if (process->tables[i])
            drop_frame(physical(process->tables[i]));
        process->tables[i] = 0;
    }
    drop_frame(physical(process->root));
    process->root = 0;
    forget_all(process);
}

#ifdef OTHER_CHOICES
/* A and D of a page as the hart has set them, which are cleared; -1 where it was never touched. */
u64 take_marks(struct process *process, u64 address)
{
    u64 *entry = entry_of(process, address, 0, 0), marks;
    if (!entry || !*entry)
        return -1UL;
    marks = *entry & (ACCESSED | DIRTY);
    *entry &= ~(ACCESSED | DIRTY);
    forget(process, address);
    return marks;
}
#endif
