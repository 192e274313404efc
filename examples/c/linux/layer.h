/*
 * What the Linux driver sources call, in user space: lists, locks, pages,
 * scatterlists, files, object ids, and a virtqueue whose device is a card
 * behind the front of capabilities.h. One thread. A lock that is taken twice,
 * or given back without having been taken, ends the program; so does memory
 * that is over when it should not be (layer_allocated).
 *
 * Names and arguments are the kernel's; nothing here needs its headers.
 */
#ifndef LAYER_H
#define LAYER_H

#include "../capabilities.h"

#include <errno.h>
#include <fcntl.h>
#include <limits.h>
#include <linux/const.h>
#include <linux/types.h>
#include <stdbool.h>
#include <stddef.h>
#include <stdint.h>
#include <stdio.h>
#include <stdlib.h>
#include <string.h>
#include <sys/types.h>

typedef uint8_t u8;
typedef uint16_t u16;
typedef uint32_t u32;
typedef uint64_t u64;

/* What the driver said; the trials read these. */
extern unsigned long layer_warnings, layer_errors, layer_allocated;
extern void layer_failed(const char *what, const char *file, int line);
#define LAYER_EXPECT(x) \
    do { \
        if (!(x)) { \
            layer_failed(#x, __FILE__, __LINE__); \
        } \
    } while (0)

/* ---- Numbers and macros --------------------------------------------------- */

#define __user
#define __iomem
#define __force
#ifndef __counted_by
#define __counted_by(x)
#endif
#define likely(x) (x)
#define unlikely(x) (x)
#define cpu_to_le16(x) ((__le16)(x)) /* x86-64, as the archive */
#define cpu_to_le32(x) ((__le32)(x))
#define cpu_to_le64(x) ((__le64)(x))
#define le16_to_cpu(x) ((u16)(x))
#define le32_to_cpu(x) ((u32)(x))
#define le64_to_cpu(x) ((u64)(x))
static inline u32 le32_to_cpup(const __le32 *from)
{
    u32 number;
    memcpy(&number, from, sizeof number);
    return number;
}
static inline u64 le64_to_cpup(const __le64 *from)
{
    u64 number;
    memcpy(&number, from, sizeof number);
    return number;
}
#define BIT(n) (1UL << (n))
#define BIT_ULL(n) (1ULL << (n))
#define BITS_PER_TYPE(x) (sizeof(x) * CHAR_BIT)
#define SZ_1M 0x100000
#define PAGE_SHIFT 12
#define PAGE_SIZE (1UL << PAGE_SHIFT)
#define DIV_ROUND_UP_ULL(a, b) (((unsigned long long)(a) + (b)-1) / (b))
#define min(a, b) ((a) < (b) ? (a) : (b))
#define min_t(t, a, b) min((t)(a), (t)(b))
#define ARRAY_SIZE(a) (sizeof(a) / sizeof *(a))
#define offsetofend(t, m) (offsetof(t, m) + sizeof(((t *)0)->m))
#define container_of(p, t, m) ((t *)(void *)((char *)(p)-offsetof(t, m)))
#define BUILD_BUG_ON(x) _Static_assert(!(x), #x)
#define BUG_ON(x) LAYER_EXPECT(!(x))
#define BUG() BUG_ON(true)
#define WARN_ON(x) \
    ({ \
        bool warned_ = (x); \
        if (warned_) { \
            fprintf(stderr, "%s:%d: WARN_ON(%s)\n", __FILE__, __LINE__, #x); \
            layer_warnings++; \
        } \
        warned_; \
    })
#define WARN_ON_ONCE WARN_ON
#define dev_err(device, ...) ((void)(device), layer_errors++)
#define EXPORT_SYMBOL_GPL(x) _Static_assert(sizeof(&x) > 0, "")
#define IS_ENABLED(x) 0
#define THIS_MODULE NULL
#define HZ 100
#define IS_ERR(p) ((unsigned long)(p) >= (unsigned long)-4095)
#define ERR_PTR(e) ((void *)(long)(e))
#define PTR_ERR(p) ((long)(p))
#define ERR_CAST(p) ((void *)(p))

/* ---- Memory ---------------------------------------------------------------- */

enum { GFP_KERNEL, GFP_KERNEL_ACCOUNT };
void *layer_alloc(size_t bytes);
void layer_free(const void *memory);
#define kzalloc(n, flags) layer_alloc(n)
#define kvcalloc(n, size, flags) layer_alloc((n) * (size))
#define kzalloc_obj(x, ...) layer_alloc(sizeof(x))
#define kvzalloc_objs(x, n, ...) layer_alloc((n) * sizeof(x))
#define kfree layer_free
#define kvfree layer_free

/* ---- Locks ------------------------------------------------------------------ */

struct mutex {
    bool held;
};
typedef struct mutex spinlock_t;
static inline struct mutex *layer_lock(struct mutex *m)
{
    LAYER_EXPECT(!m->held);
    m->held = true;
    return m;
}
static inline void layer_unlock(struct mutex *m)
{
    LAYER_EXPECT(m->held);
    m->held = false;
}
static inline void layer_unlock_at_end(struct mutex **m) { layer_unlock(*m); }
static inline int mutex_trylock(struct mutex *m)
{
    return !m->held && layer_lock(m);
}
#define mutex_init(m) ((void)((m)->held = false))
#define mutex_destroy(m) LAYER_EXPECT(!(m)->held)
#define mutex_lock(m) ((void)layer_lock(m))
#define mutex_unlock layer_unlock
#define lockdep_assert_held(m) LAYER_EXPECT((m)->held)
#define spin_lock_init mutex_init
#define spin_lock mutex_lock
#define spin_unlock layer_unlock
#define spin_lock_irqsave(l, flags) ((flags) = 0, (void)layer_lock(l))
#define spin_unlock_irqrestore(l, flags) ((void)(flags), layer_unlock(l))
#define LAYER_HELD __attribute__((cleanup(layer_unlock_at_end), unused))
#define LAYER_NAME_(a, b) a##b
#define LAYER_NAME(a, b) LAYER_NAME_(a, b)
#define guard(type) guard_##type
#define guard_mutex(m) \
    struct mutex *LAYER_NAME(held_, __COUNTER__) LAYER_HELD = layer_lock(m)
#define scoped_guard(type, m) \
    for (struct mutex *held_ LAYER_HELD = layer_lock(m), *once_ = held_; \
         once_; once_ = NULL)
#define cpu_relax() ((void)0)

/* ---- Lists ------------------------------------------------------------------- */

struct list_head {
    struct list_head *next, *prev;
};
#define INIT_LIST_HEAD(l) ((void)((l)->next = (l)->prev = (l)))
static inline bool list_empty(const struct list_head *l)
{
    return l->next == l;
}
static inline void layer_between(struct list_head *x, struct list_head *before,
                                 struct list_head *after)
{
    before->next = after->prev = x;
    x->prev = before;
    x->next = after;
}
static inline void list_add(struct list_head *x, struct list_head *l)
{
    layer_between(x, l, l->next);
}
static inline void list_add_tail(struct list_head *x, struct list_head *l)
{
    layer_between(x, l->prev, l);
}
static inline void list_del(struct list_head *x)
{
    x->prev->next = x->next;
    x->next->prev = x->prev;
    x->next = x->prev = NULL;
}
static inline void list_del_init(struct list_head *x)
{
    list_del(x);
    INIT_LIST_HEAD(x);
}
/* as the kernel's, from is left as it is */
static inline void list_splice(struct list_head *from, struct list_head *to)
{
    if (!list_empty(from)) {
        from->prev->next = to->next;
        to->next->prev = from->prev;
        to->next = from->next;
        from->next->prev = to;
    }
}
#define list_entry container_of
#define list_first_entry(l, t, m) list_entry((l)->next, t, m)
#define list_first_entry_or_null(l, t, m) \
    (list_empty(l) ? NULL : list_first_entry(l, t, m))
#define list_for_each_entry(p, l, m) \
    for (p = list_entry((l)->next, __typeof__(*p), m); &p->m != (l); \
         p = list_entry(p->m.next, __typeof__(*p), m))
#define list_for_each_entry_safe(p, n, l, m) \
    for (p = list_entry((l)->next, __typeof__(*p), m), \
        n = list_entry(p->m.next, __typeof__(*p), m); \
         &p->m != (l); p = n, n = list_entry(n->m.next, __typeof__(*p), m))

/* ---- Pages and scatterlists: an entry is one page, or one buffer -------------- */

struct page {
    u8 bytes[1 << PAGE_SHIFT];
};
struct scatterlist {
    void *at;
    unsigned int length;
    bool last;
};
struct sg_table {
    struct scatterlist *sgl;
    unsigned int orig_nents;
};
struct sg_append_table {
    struct sg_table sgt;
};
struct sg_page_iter {
    struct scatterlist *sg;
};
#define SG_MAX_SINGLE_ALLOC 128
static inline void sg_init_one(struct scatterlist *sg, const void *at,
                               unsigned int length)
{
    *sg = (struct scatterlist){(void *)at, length, true};
}
static inline struct scatterlist *sg_next(struct scatterlist *sg)
{
    return sg->last ? NULL : sg + 1;
}
#define sg_page(sg) ((struct page *)(sg)->at)
#define sg_is_last(sg) ((sg)->last)
#define sg_mark_end(sg) ((void)((sg)->last = true))
#define sg_unmark_end(sg) ((void)((sg)->last = false))
#define for_each_sg(l, sg, n, i) \
    for (i = 0, sg = (l); i < (n); i++, sg = sg_next(sg))
int sg_nents_for_len(struct scatterlist *sg, u64 length);
int sg_alloc_append_table_from_pages(struct sg_append_table *table,
                                     struct page **pages, unsigned int count,
                                     unsigned int offset, unsigned long size,
                                     unsigned int max_segment,
                                     unsigned int left, int flags);
void sg_free_append_table(struct sg_append_table *table);
#define for_each_sgtable_page(t, it, offset) \
    for ((it)->sg = (t)->sgl; \
         (it)->sg && (it)->sg < (t)->sgl + (t)->orig_nents; (it)->sg++)
#define sg_page_iter_page(it) sg_page((it)->sg)
unsigned long alloc_pages_bulk(int flags, unsigned int count,
                               struct page **pages);
#define alloc_pages_bulk_array alloc_pages_bulk
#define __free_page layer_free
#define kmap_local_page(p) ((void *)(p)->bytes)
#define kunmap_local(p) ((void)(p))
#define copy_to_user(to, from, n) (memcpy(to, from, n), 0)
#define copy_from_user(to, from, n) (memcpy(to, from, n), 0)

/* ---- Files --------------------------------------------------------------------- */

struct inode;
struct file;
struct file_operations {
    void *owner;
    ssize_t (*read)(struct file *, char *, size_t, loff_t *);
    ssize_t (*write)(struct file *, const char *, size_t, loff_t *);
    long (*unlocked_ioctl)(struct file *, unsigned int, unsigned long);
    long (*compat_ioctl)(struct file *, unsigned int, unsigned long);
    int (*release)(struct inode *, struct file *);
};
struct file {
    void *private_data;
    loff_t f_pos;
    struct inode *f_inode;
    const struct file_operations *f_op;
    int count;
};
#define compat_ptr_ioctl NULL
#define stream_open(inode, file) ((void)(inode), (void)(file))
struct file *anon_inode_getfile(const char *name,
                                const struct file_operations *operations,
                                void *data, int flags);
#define get_file(f) ((void)(f)->count++)
void fput(struct file *file);

/* ---- Rates, completions, object ids --------------------------------------------- */

struct ratelimit_state {
    int none;
};
#define ratelimit_state_init(r, interval, burst) ((void)(r))
#define ratelimit_set_flags(r, flags) ((void)(r))
#define RATELIMIT_MSG_ON_RELEASE 1
#define __ratelimit(r) ((void)(r), true) /* time passes between two calls */

struct completion {
    bool done;
};
#define init_completion(c) ((void)((c)->done = false))
#define complete(c) ((void)((c)->done = true))
void wait_for_completion(struct completion *completion);

struct ida {
    u64 taken;
};
#define ida_init(i) ((void)((i)->taken = 0))
int ida_alloc_range(struct ida *ids, unsigned int lowest, unsigned int highest,
                    int flags);
void ida_free(struct ida *ids, unsigned int id);

/* ---- The administration queue and its device ------------------------------------- */

/* A card, the front before it, and what they were asked. */
struct layer_card {
    struct capabilities front;
    bool without_front;
    size_t bytes;
    u8 card[KAJURNAT_CARD_BYTES(KAJURNAT_MEMBERS_MAX)];
};
extern unsigned long layer_commands, layer_refused, layer_full;

struct virtio_device;
struct virtqueue {
    struct list_head list;
    void (*callback)(struct virtqueue *);
    struct virtio_device *vdev;
    unsigned int index, num_max;
    bool reset;
    void *priv; /* its struct layer_card */
    void *brought; /* what waits to be taken by get_buf, and its length */
    unsigned int written;
};

/* The queue is full whenever this gives true; NULL: never. */
extern bool (*layer_queue_full)(void);

/* Carries the command out at once; the interrupt comes with the wait. */
int virtqueue_add_sgs(struct virtqueue *queue, struct scatterlist **lists,
                      unsigned int out, unsigned int in, void *data, int flags);
void *virtqueue_get_buf(struct virtqueue *queue, unsigned int *length);
#define virtqueue_detach_unused_buf(queue) ((void)(queue), NULL)
#define virtqueue_kick(queue) ((void)(queue), true)
#define virtqueue_is_broken(queue) ((void)(queue), false)
#define virtqueue_disable_cb(queue) ((void)(queue))
#define virtqueue_enable_cb(queue) ((void)(queue), true)

#endif
