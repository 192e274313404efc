/*
 * The layer of linux/ on a small host program of ours: what `make linux` has
 * the kernel's drivers stand on is tried without them. Lists, locks, ids, files
 * and pages one by one; then two cards behind the front, their commands in
 * scatterlists that are cut anywhere, and a member that moves over them.
 */
#include "linux/layer.h"

#include "common.h"

void layer_failed(const char *what, const char *file, int line)
{
    fprintf(stderr, "%s:%d: failed: %s\n", file, line, what);
    exit(EXIT_FAILURE);
}

/* ---- The parts of the layer --------------------------------------------------- */

struct entry {
    int number;
    struct list_head node;
};

static void try_lists(void)
{
    struct entry entries[6];
    struct list_head one, two;
    struct entry *entry, *next;
    int expected = 0;
    INIT_LIST_HEAD(&one);
    INIT_LIST_HEAD(&two);
    list_splice(&two, &one);
    expect(list_empty(&one), "nothing is spliced");
    for (int i = 0; i < 6; i++) {
        entries[i].number = i;
        list_add_tail(&entries[i].node, i < 3 ? &one : &two);
    }
    list_splice(&one, &two); /* to the front */
    list_for_each_entry_safe(entry, next, &two, node) {
        expect(entry->number == expected++, "the order of a list");
        list_del_init(&entry->node);
        expect(list_empty(&entry->node), "an entry alone");
    }
    expect(expected == 6 && list_empty(&two), "all entries");
    list_add(&entries[1].node, &two);
    list_add(&entries[0].node, &two);
    expect(list_first_entry_or_null(&two, struct entry, node) == &entries[0],
           "the first entry");
    list_del(&entries[0].node);
    list_for_each_entry(entry, &two, node) {
        expect(entry == &entries[1], "the entry that is left");
    }
}

static bool held_in_guard(struct mutex *lock)
{
    guard(mutex)(lock);
    return lock->held;
}

static void try_locks(void)
{
    struct mutex lock;
    int rounds = 0;
    mutex_init(&lock);
    expect(held_in_guard(&lock) && !lock.held, "a guard ends with its block");
    scoped_guard(mutex, &lock)
    {
        expect(lock.held && !mutex_trylock(&lock), "a scope holds its lock");
        rounds++;
    }
    expect(rounds == 1 && !lock.held, "a scope is run once");
    expect(mutex_trylock(&lock) == 1 && lock.held, "a lock that is free");
    mutex_unlock(&lock);
}

static void try_ids(void)
{
    struct ida ids;
    ida_init(&ids);
    for (int i = 0; i < 3; i++) {
        expect(ida_alloc_range(&ids, 0, 2, GFP_KERNEL) == i, "ids in order");
    }
    expect(ida_alloc_range(&ids, 0, 2, GFP_KERNEL) == -ENOSPC, "no id left");
    ida_free(&ids, 1);
    expect(ida_alloc_range(&ids, 0, 2, GFP_KERNEL) == 1, "an id again");
}

static int released;

static int release(struct inode *inode, struct file *file)
{
    (void)inode;
    released += *(int *)file->private_data;
    return 0;
}

static void try_files(void)
{
    const struct file_operations operations = {.release = release};
    int data = 7;
    struct file *file = anon_inode_getfile("file", &operations, &data, O_RDONLY);
    get_file(file);
    fput(file);
    expect(released == 0, "a file that is still open");
    fput(file);
    expect(released == 7, "a file that is closed");
}

/* A table of pages, which the caller frees. */
static struct sg_append_table pages_of(unsigned int count)
{
    struct sg_append_table table = {{NULL, 0}};
    struct page *pages[8] = {NULL};
    for (unsigned int more = 1; count > 0; count -= more) {
        more = min(count, 2u);
        expect(alloc_pages_bulk(GFP_KERNEL, more, pages) == more, "pages");
        expect(sg_alloc_append_table_from_pages(&table, pages, more, 0,
                                                more * PAGE_SIZE, UINT_MAX,
                                                SG_MAX_SINGLE_ALLOC,
                                                GFP_KERNEL) == 0,
               "a table of pages");
    }
    return table;
}

static void free_pages(struct sg_append_table *table)
{
    struct sg_page_iter at;
    for_each_sgtable_page(&table->sgt, &at, 0) {
        __free_page(sg_page_iter_page(&at));
    }
    sg_free_append_table(table);
}

static void try_pages(void)
{
    struct sg_append_table table = pages_of(5);
    struct scatterlist *sg, *first = table.sgt.sgl;
    unsigned int i, last = 0;
    for_each_sg(first, sg, table.sgt.orig_nents, i) {
        expect(sg->length == PAGE_SIZE && sg_page(sg) != NULL, "a page");
        last += sg_is_last(sg);
    }
    expect(i == 5 && last == 1, "five pages, the last one marked");
    expect(sg_nents_for_len(first, 0) == 0, "no byte needs no page");
    expect(sg_nents_for_len(first, PAGE_SIZE) == 1, "a page's bytes");
    expect(sg_nents_for_len(first, PAGE_SIZE + 1) == 2, "a byte more");
    expect(sg_nents_for_len(first, 6 * PAGE_SIZE) == -EINVAL, "too many");
    free_pages(&table);
}

/* ---- A host of ours over the queue ------------------------------------------------- */

struct host {
    struct layer_card card;
    struct virtqueue queue;
};

static struct host hosts[2];
static struct completion completion;
static unsigned int written;

static void done(struct virtqueue *queue)
{
    struct completion *of = virtqueue_get_buf(queue, &written);
    expect(of == &completion, "the command that was sent");
    complete(of);
}

static bool full_once(void)
{
    static unsigned int calls;
    return ++calls % 3 == 0;
}

/* Cuts bytes into a scatterlist of pieces of 1, 2, 3 .. bytes. */
static struct scatterlist *cut(struct scatterlist *to, uint8_t *bytes,
                               size_t length)
{
    size_t at = 0, i = 0;
    for (; at < length; i++) {
        size_t piece = min(i + 1, length - at);
        sg_init_one(&to[i], bytes + at, (unsigned int)piece);
        sg_unmark_end(&to[i]);
        at += piece;
    }
    sg_mark_end(&to[i - 1]);
    return to;
}

/* Sends a request, cut, and gives the reply's length. */
static size_t send(struct host *h, uint8_t *request, size_t length,
                   uint8_t *reply, size_t room)
{
    struct scatterlist out[100], in[100], head, *lists[3] = {out, &head, in};
    cut(out, request, length);
    sg_init_one(&head, reply, KAJURNAT_REPLY_HEAD_BYTES);
    if (room > KAJURNAT_REPLY_HEAD_BYTES) {
        cut(in, reply + KAJURNAT_REPLY_HEAD_BYTES,
            room - KAJURNAT_REPLY_HEAD_BYTES);
    }
    init_completion(&completion);
    while (virtqueue_add_sgs(&h->queue, lists, 1,
                             room > KAJURNAT_REPLY_HEAD_BYTES ? 2 : 1,
                             &completion, GFP_KERNEL) == -ENOSPC) {
        cpu_relax();
    }
    expect(virtqueue_kick(&h->queue), "a queue that works");
    wait_for_completion(&completion);
    return written;
}

static void power_on(struct host *h, uint8_t filled)
{
    const uint8_t queues[2] = {3, 3}, features[KAJURNAT_FEATURES_BYTES] = {0};
    uint8_t value[16];
    memset(value, filled, sizeof value);
    h->card.bytes = KAJURNAT_CARD_BYTES(2);
    h->queue = (struct virtqueue){.callback = done, .priv = &h->card};
    expect(kajurnat_setup(h->card.card, h->card.bytes, 2, queues, 2, 4, 3,
                          features, sizeof features) == KAJURNAT_DONE,
           "the setup is taken");
    for (uint64_t member = 1; member <= 2; member++) {
        expect(kajurnat_store(h->card.card, h->card.bytes, member,
                              KAJURNAT_PART_DRV_FEATURES, 0, value,
                              sizeof value) == KAJURNAT_DONE,
               "a part is stored");
    }
}

/* What a Linux driver starts with: lists, then capabilities. */
static void start(struct host *h)
{
    uint8_t request[KAJURNAT_REQUEST_BYTES_MAX] = {0}, reply[64];
    size_t length = kajurnat_request_list_query(request, sizeof request);
    expect(send(h, request, length, reply, 16) == 16, "the list");
    uint64_t mask = get_number(reply + 8, 8);
    expect(mask == (KAJURNAT_CMD_MASK | CAPABILITIES_CMD_MASK), "its bits");
    length = kajurnat_request_list_use(request, sizeof request, mask);
    expect(send(h, request, length, reply, 8) == 8 && reply[0] == 0, "use");

    memset(request, 0, 40);
    request[0] = CAPABILITIES_CMD_LIST;
    expect(send(h, request, 24, reply, 16) == 16 && reply[8] == 1, "which");
    request[0] = CAPABILITIES_CMD_GET;
    expect(send(h, request, 32, reply, 10) == 10 && reply[8] == 4 &&
               reply[9] == 3,
           "the device's limits");
    request[0] = CAPABILITIES_CMD_SET;
    request[32] = request[33] = 3;
    expect(send(h, request, 34, reply, 8) == 8 && reply[0] == 0, "the driver's");
    expect(h->card.front.driver_set == 1 && h->card.front.gets == 3 &&
               h->card.front.sets == 3,
           "what the front keeps");
}

static void command(struct host *h, uint8_t *request, size_t length,
                    uint8_t *reply, size_t room)
{
    expect(send(h, request, length, reply, room) == room && reply[0] == 0,
           "a command of the move");
}

static void move(struct host *from, struct host *to)
{
    enum { LENGTH = KAJURNAT_CAPTURE_BYTES(3) };
    static uint8_t q[KAJURNAT_REQUEST_BYTES_MAX], first[8 + LENGTH],
        again[8 + LENGTH], r[8];
    size_t size = sizeof q;
    command(from, q, kajurnat_request_create(q, size, 1, 0, KAJURNAT_OBJ_GET),
            r, 8);
    command(from, q, kajurnat_request_mode(q, size, 1, KAJURNAT_MODE_STOP), r,
            8);
    command(from, q,
            kajurnat_request_get(q, size, 1, 0, KAJURNAT_PARTS_ALL, NULL, 0),
            first, sizeof first);
    command(to, q, kajurnat_request_create(q, size, 2, 0, KAJURNAT_OBJ_SET), r,
            8);
    command(to, q, kajurnat_request_mode(q, size, 2, KAJURNAT_MODE_STOP), r, 8);
    command(to, q, kajurnat_request_set(q, size, 2, 0, first + 8, LENGTH), r,
            8);
    command(to, q, kajurnat_request_modify(q, size, 2, 0, KAJURNAT_OBJ_GET), r,
            8);
    command(to, q,
            kajurnat_request_get(q, size, 2, 0, KAJURNAT_PARTS_ALL, NULL, 0),
            again, sizeof again);
    expect(memcmp(first, again, sizeof first) == 0, "the member has moved");
}

int main(int count, char **arguments)
{
    take_no_arguments(count, arguments, "tries the layer of linux/");
    try_lists();
    try_locks();
    try_ids();
    try_files();
    try_pages();
    layer_queue_full = full_once;
    for (unsigned int i = 0; i < 2; i++) {
        power_on(&hosts[i], (uint8_t)(0x11 << i));
        start(&hosts[i]);
    }
    move(&hosts[0], &hosts[1]);
    expect(layer_allocated == 0 && layer_refused == 0 && layer_full > 0,
           "nothing is left, nothing was refused, and the queue was full");
    printf("the layer of linux/: a member moved over its queue, in %lu "
           "commands\n",
           layer_commands);
    return EXIT_SUCCESS;
}
