#include "layer.h"

/* Pages at most, so that a damaged length does not take the machine's. */
enum { PAGES_MAX = 4096, ENTRIES_MAX = 1024 };

unsigned long layer_warnings, layer_errors, layer_allocated;
unsigned long layer_commands, layer_refused, layer_full;
bool (*layer_queue_full)(void);

/* ---- Memory ---------------------------------------------------------------- */

void *layer_alloc(size_t bytes)
{
    void *memory = calloc(1, bytes);
    layer_allocated += memory != NULL;
    return memory;
}

void layer_free(const void *memory)
{
    layer_allocated -= memory != NULL;
    free((void *)memory);
}

unsigned long alloc_pages_bulk(int flags, unsigned int count,
                               struct page **pages)
{
    unsigned long filled = 0;
    (void)flags;
    while (filled < count && layer_allocated < PAGES_MAX) {
        pages[filled++] = layer_alloc(sizeof(struct page));
    }
    return filled;
}

/* ---- Scatterlists ------------------------------------------------------------ */

int sg_nents_for_len(struct scatterlist *sg, u64 length)
{
    u64 total = 0;
    for (int count = 1; sg && length > 0; sg = sg_next(sg), count++) {
        total += sg->length;
        if (total >= length) {
            return count;
        }
    }
    return length ? -EINVAL : 0;
}

int sg_alloc_append_table_from_pages(struct sg_append_table *table,
                                     struct page **pages, unsigned int count,
                                     unsigned int offset, unsigned long size,
                                     unsigned int max_segment,
                                     unsigned int left, int flags)
{
    struct sg_table *t = &table->sgt;
    (void)max_segment, (void)left, (void)flags;
    LAYER_EXPECT(offset == 0 && size == count * PAGE_SIZE && count > 0);
    if (!t->sgl) {
        t->sgl = layer_alloc(ENTRIES_MAX * sizeof *t->sgl);
    }
    if (!t->sgl || t->orig_nents + count > ENTRIES_MAX) {
        return -ENOMEM;
    }
    if (t->orig_nents) {
        t->sgl[t->orig_nents - 1].last = false;
    }
    for (unsigned int i = 0; i < count; i++) {
        sg_init_one(&t->sgl[t->orig_nents++], pages[i], PAGE_SIZE);
        t->sgl[t->orig_nents - 1].last = i + 1 == count;
    }
    return 0;
}

void sg_free_append_table(struct sg_append_table *table)
{
    layer_free(table->sgt.sgl);
    table->sgt = (struct sg_table){0};
}

/* ---- Files ---------------------------------------------------------------------- */

struct file *anon_inode_getfile(const char *name,
                                const struct file_operations *operations,
                                void *data, int flags)
{
    struct file *file = layer_alloc(sizeof *file);
    (void)name, (void)flags;
    *file = (struct file){.private_data = data, .f_op = operations, .count = 1};
    return file;
}

void fput(struct file *file)
{
    LAYER_EXPECT(file->count > 0);
    if (--file->count == 0) {
        file->f_op->release(file->f_inode, file);
        layer_free(file);
    }
}

/* ---- Object ids ------------------------------------------------------------------ */

int ida_alloc_range(struct ida *ids, unsigned int lowest, unsigned int highest,
                    int flags)
{
    (void)flags;
    LAYER_EXPECT(highest < 64);
    for (unsigned int id = lowest; id <= highest; id++) {
        if (!(ids->taken & BIT_ULL(id))) {
            ids->taken |= BIT_ULL(id);
            return (int)id;
        }
    }
    return -ENOSPC;
}

void ida_free(struct ida *ids, unsigned int id)
{
    LAYER_EXPECT(id < 64 && ids->taken & BIT_ULL(id));
    ids->taken &= ~BIT_ULL(id);
}

/* ---- The queue ---------------------------------------------------------------------- */

static struct virtqueue *interrupting;

/* The bytes of some lists, gathered; or as many as there are, spread. */
static size_t gather(struct scatterlist **lists, unsigned int count, u8 *to)
{
    size_t at = 0;
    for (unsigned int i = 0; i < count; i++) {
        for (struct scatterlist *sg = lists[i]; sg; sg = sg_next(sg)) {
            if (to) {
                memcpy(to + at, sg->at, sg->length);
            }
            at += sg->length;
        }
    }
    return at;
}

static void spread(struct scatterlist **lists, unsigned int count,
                   const u8 *from, size_t length)
{
    for (unsigned int i = 0; i < count; i++) {
        for (struct scatterlist *sg = lists[i]; sg; sg = sg_next(sg)) {
            size_t piece = min(length, sg->length);
            memcpy(sg->at, from, piece);
            from += piece;
            length -= piece;
        }
    }
}

static size_t carry_out(struct layer_card *c, const u8 *request, size_t length,
                        u8 *reply, size_t room)
{
    return c->without_front
               ? kajurnat_command(c->card, c->bytes, request, length, reply,
                                  room)
               : capabilities_command(&c->front, c->card, c->bytes, request,
                                      length, reply, room);
}

int virtqueue_add_sgs(struct virtqueue *queue, struct scatterlist **lists,
                      unsigned int out, unsigned int in, void *data, int flags)
{
    size_t length = gather(lists, out, NULL), written;
    size_t room = gather(lists + out, in, NULL);
    u8 *request, *reply;
    (void)flags;
    if (layer_queue_full && layer_queue_full()) {
        layer_full++;
        return -ENOSPC;
    }
    LAYER_EXPECT(!queue->brought && !interrupting);
    request = malloc(length);
    reply = malloc(room);
    gather(lists, out, request);
    written = carry_out(queue->priv, request, length, reply, room);
    LAYER_EXPECT(written >= 8 && written <= room);
    spread(lists + out, in, reply, written);
    layer_commands++;
    layer_refused += reply[0] != 0 || reply[1] != 0;
    queue->brought = data;
    queue->written = (unsigned int)written;
    interrupting = queue;
    free(request);
    free(reply);
    return 0;
}

void *virtqueue_get_buf(struct virtqueue *queue, unsigned int *length)
{
    void *data = queue->brought;
    queue->brought = NULL;
    *length = queue->written;
    return data;
}

void wait_for_completion(struct completion *completion)
{
    struct virtqueue *queue = interrupting;
    interrupting = NULL;
    if (queue) {
        queue->callback(queue);
    }
    LAYER_EXPECT(completion->done);
}
