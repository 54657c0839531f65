/* What the parts of the kernel share. */
#pragma once

typedef unsigned char u8;
typedef unsigned int u32;
typedef unsigned long u64;

#define PAGE 4096UL
#define MEGAPAGE (PAGE << 9)

/* Virtual addresses: a user's space, and in the upper half all of RAM in one gigapage, the kernel, the devices. */
#define USER_BASE 0x10000UL
#define USER_END 0x4000000000UL
#define STACK_PAGES 16
#define LINEAR 0xffffffc000000000UL
#define KERNEL 0xffffffff80000000UL
#define DEVICES 0xffffffff90000000UL
#define KERNEL_OFFSET 0xffffffff00000000UL

/* Physical addresses: after the kernel one megapage that processes share, then the frames. */
#define RAM 0x80000000UL
#define UART 0x10000000UL
#define SHARED 0x80600000UL
#define FRAMES 0x80800000UL
#define FRAMES_MOST 1024

/* The bits of an entry of a page table, with two of the kernel's own. */
enum {
    VALID = 1 << 0,
    READ = 1 << 1,
    WRITE = 1 << 2,
    EXECUTE = 1 << 3,
    USER = 1 << 4,
    GLOBAL = 1 << 5,
    ACCESSED = 1 << 6,
    DIRTY = 1 << 7,
    COPIED_ON_WRITE = 1 << 8,
    AGED = 1 << 9, /* there, but V is clear, so that the next access is noticed */
};

/*
 * Of A and D, what leaves have from the beginning. Harts differ in whether they set them or raise a page fault;
 * with OTHER_CHOICES the kernel is one for harts that set them, and carry out loads and stores at any address.
 */
#ifdef OTHER_CHOICES
enum { MARKS = 0 };
#else
enum { MARKS = ACCESSED | DIRTY };
#endif

enum { CALL_FROM_U = 8, FETCH_PAGE_FAULT = 12, LOAD_PAGE_FAULT = 13, STORE_PAGE_FAULT = 15 };
enum { SOFTWARE_INTERRUPT = 1, TIMER_INTERRUPT = 5 };
enum { SIE = 1 << 1, SPIE = 1 << 5, SPP = 1 << 8, SSIP = 1 << 1 };

#define READ_CSR(name) \
    ({ \
        u64 value_; \
        __asm__ volatile("csrr %0, " #name : "=r"(value_)); \
        value_; \
    })
#define WRITE_CSR(name, value) __asm__ volatile("csrw " #name ", %0" : : "r"(value) : "memory")
#define SET_CSR(name, value) __asm__ volatile("csrs " #name ", %0" : : "rK"(value) : "memory")
#define CLEAR_CSR(name, value) __asm__ volatile("csrc " #name ", %0" : : "rK"(value) : "memory")

/* What a trap keeps on the kernel's stack. */
struct frame {
    u64 x[32]; /* x0 is not kept */
    u64 epc, status, cause, value;
};

enum { A0 = 10, A1 = 11, A2 = 12, A7 = 17 };

/* A program begins with the ends of its parts, as virtual addresses of its space; the pages follow in order. */
struct program {
    u64 text_end, rodata_end, data_end, bss_end;
    u64 text_rights; /* READ and EXECUTE, or EXECUTE alone */
};

enum state { FREE, READY, SLEEPING, WAITING, ENDED };
enum { PROCESSES = 10, TABLES = 8, SHARES = 2 };

struct process {
    u64 stack_pointer; /* of the kernel's stack, while another process runs */
    u64 *stack;
    enum state state;
    u64 number, parent, status, wake;
    const struct program *program;
    u64 *root;
    u64 break_; /* the end of the heap */
    u64 hand;   /* the address of the page that is aged next */
    u64 *tables[TABLES];
    u64 shares[SHARES]; /* where the shared megapage is mapped, 0 where it is not */
};

/* What the run counts, and says at its end. */
struct counts {
    u64 ticks, switches, mapped, aged, revived, shared, copied, killed;
};

extern struct process processes[PROCESSES], *current;
extern struct counts counts;
extern const struct program *const programs[];

/* entry.s */
void trap_exit(void);
void switch_context(u64 *from, u64 *to);
long copy_user(void *to, const void *from, u64 bytes);
extern const u8 copy_user_end[], peek_end[], copy_failed[];
long peek(u64 *to, u64 from);
void clear_page(void *page);
void copy_page(void *to, const void *from);

/* memory.c */
u64 *new_frame(void);
void drop_frame(u64 physical);
u64 *new_root(void);
void enter_space(const struct process *process);
u64 repair(struct process *process, u64 address, u64 cause);
void age(struct process *process);
void share_megapage(struct process *process, u64 address);
void copy_space(struct process *from, struct process *to);
void drop_space(struct process *process);
u64 take_marks(struct process *process, u64 address);

/* process.c */
void schedule(void);
void wake_sleepers(void);
u64 spawn(u64 program);
u64 fork_process(const struct frame *frame);
void end_process(u64 status);
u64 wait_for_child(u64 *status);
void sleep_ticks(u64 ticks);

/* main.c */
void put(char c);
void say(const char *text);
void shut_down(u64 status);
void set_timer(u64 when);

static inline void *linear(u64 physical)
{
    return (void *)(physical - RAM + LINEAR);
}

static inline u64 physical(const void *linear)
{
    return (u64)linear - LINEAR + RAM;
}
