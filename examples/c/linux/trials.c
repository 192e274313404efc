/*
 * Linux as the host of two cards: its own drivers, over drivers.h, move guests
 * from one card to the other. trials SEED COUNT KERNEL
 *
 * In each trial some guests move at once, a step of one after a step of
 * another. The trial keeps what every member of both cards should hold, and
 * compares all of them after every move.
 */
#include "drivers.h"

#include <drivers/vfio/pci/virtio/common.h>
#include <drivers/virtio/virtio_pci_common.h>
#include <linux/virtio_pci_admin.h>

enum { LINE_MAX_BYTES = 1 << 16, MOVES_MAX = 4, PIECE_MAX = 700 };

/* ---- Counts, and what is drawn ------------------------------------------------ */

static struct {
    unsigned long trials, without_objects, moves, whole, precopied, lists;
    unsigned long features, fewer, more, damaged, damage_taken, cut;
    unsigned long closed_source, closed_target, waits, owner_resets;
    unsigned long reset_under, ids_lost, stuck, resets, pieces;
} counts;

static unsigned long seed, trial_seed;
static u64 state;

static u32 draw(u32 below)
{
    state = state * 6364136223846793005ULL + 1442695040888963407ULL;
    return (u32)(state >> 33) % below;
}

static bool one_in_fifty(void) { return draw(50) == 0; }

void layer_failed(const char *what, const char *file, int line)
{
    fprintf(stderr, "%s:%d: failed: %s (trial %lu of seed %lu)\n", file, line,
            what, trial_seed, seed);
    exit(EXIT_FAILURE);
}

/* ---- What a member holds --------------------------------------------------------- */

/* The parts that a store sets, in the order of a capture. */
static const struct {
    u16 type;
    u8 selector, size;
} parts[] = {{0x101, 0, 16}, {0x102, 0, 4},  {0x102, 8, 4}, {0x102, 16, 2},
             {0x102, 22, 2}, {0x103, 0, 1},  {0x104, 0, 32}, {0x104, 1, 32},
             {0x104, 2, 32}, {0x104, 3, 32}, {0x105, 0, 8}, {0x105, 1, 8},
             {0x105, 2, 8},  {0x105, 3, 8}};
enum { PARTS = 14, PART_QUEUES = 6 };

/* Whether a member with this many queues has part p. */
static bool has(unsigned p, unsigned queues)
{
    return p < PART_QUEUES || parts[p].selector < queues;
}

struct image {
    u8 value[PARTS][32];
};

struct host {
    struct virtio_pci_device owner; /* the kernel's */
    struct virtio_pci_vq_info info;
    struct virtqueue queue;
    struct pci_dev function, vf[KAJURNAT_MEMBERS_MAX];
    struct virtiovf_pci_core_device guest[KAJURNAT_MEMBERS_MAX];
    struct layer_card card;
    unsigned members, limit;
    u8 status, queues[KAJURNAT_MEMBERS_MAX];
    struct image should[KAJURNAT_MEMBERS_MAX];
};

static struct host hosts[2];
static bool foreign; /* the second has other device features */

static struct image holds(struct host *h, unsigned i)
{
    struct image image = {0};
    for (unsigned p = 0; p < PARTS; p++) {
        if (has(p, h->queues[i])) {
            LAYER_EXPECT(kajurnat_load(h->card.card, h->card.bytes, i + 1,
                                       parts[p].type, parts[p].selector,
                                       image.value[p],
                                       parts[p].size) == KAJURNAT_DONE);
        }
    }
    return image;
}

struct told {
    u8 state, queues, gets, sets;
    u16 held;
};

static struct told told_of(struct host *h, unsigned i)
{
    struct told t;
    LAYER_EXPECT(kajurnat_member(h->card.card, h->card.bytes, i + 1, &t.state,
                                 &t.queues, &t.gets, &t.sets,
                                 &t.held) == KAJURNAT_DONE);
    return t;
}

static void no_object_left(struct host *h, unsigned i)
{
    struct told t = told_of(h, i);
    LAYER_EXPECT(t.gets == 0 && t.sets == 0);
}

/* What a guest's driver and the data path do to a member. */
static void live(struct host *h, unsigned i)
{
    for (unsigned k = draw(8); k > 0; k--) {
        unsigned p = draw(PARTS);
        u8 value[32];
        if (!has(p, h->queues[i])) {
            continue;
        }
        for (unsigned j = 0; j < sizeof value; j++) {
            value[j] = (u8)draw(256);
        }
        if (parts[p].type == 0x104) { /* a size that a ring has */
            u16 size = (u16)(1u << draw(16));
            memcpy(value, &size, sizeof size);
        }
        LAYER_EXPECT(kajurnat_store(h->card.card, h->card.bytes, i + 1,
                                    parts[p].type, parts[p].selector, value,
                                    parts[p].size) == KAJURNAT_DONE);
        memcpy(h->should[i].value[p], value, parts[p].size);
    }
}

/* ---- The card as the driver's device ----------------------------------------------- */

struct virtio_device *virtio_pci_vf_get_pf_dev(struct pci_dev *pdev)
{
    return pdev->owner;
}

u8 vp_modern_get_status(struct virtio_pci_modern_device *mdev)
{
    return container_of(mdev->pci_dev, struct host, function)->status;
}

/* Status 0 resets the owner: the card, and what the front keeps. */
void vp_modern_set_status(struct virtio_pci_modern_device *mdev, u8 status)
{
    struct host *h = container_of(mdev->pci_dev, struct host, function);
    h->status = status;
    if (status == 0) {
        LAYER_EXPECT(kajurnat_reset_card(h->card.card, h->card.bytes,
                                         draw(1000)) == KAJURNAT_DONE);
        memset(&h->card.front, 0, sizeof h->card.front);
        memset(h->should, 0, sizeof h->should);
    }
}

void vp_synchronize_vectors(struct virtio_device *vdev) { (void)vdev; }
void msleep(unsigned int milliseconds) { (void)milliseconds; }

/* A function-level reset of a member, as firmware does it. */
static void reset_member(struct host *h, unsigned i)
{
    u8 *card = h->card.card;
    LAYER_EXPECT(kajurnat_hand_back(card, h->card.bytes, i + 1) ==
                 KAJURNAT_DONE);
    LAYER_EXPECT(told_of(h, i).state == KAJURNAT_MEMBER_MARKED);
    LAYER_EXPECT(kajurnat_wipe(card, h->card.bytes, i + 1, draw(1000)) ==
                 KAJURNAT_DONE);
    LAYER_EXPECT(told_of(h, i).state == KAJURNAT_MEMBER_RUNNING);
    memset(&h->should[i], 0, sizeof h->should[i]);
    no_object_left(h, i);
    counts.resets++;
}

static void power_on(struct host *h, unsigned members, const u8 *queues,
                     unsigned gets, unsigned sets, const u8 *features,
                     bool without_front)
{
    memset(h, 0, sizeof *h);
    h->members = members;
    memcpy(h->queues, queues, members);
    h->limit = without_front ? 0 : min(gets, sets);
    h->card.bytes = KAJURNAT_CARD_BYTES(members);
    h->card.without_front = without_front;
    LAYER_EXPECT(kajurnat_setup(h->card.card, h->card.bytes, members, queues,
                                members, gets, sets, features,
                                KAJURNAT_FEATURES_BYTES) == KAJURNAT_DONE);
    h->queue.vdev = &h->owner.vdev;
    h->queue.callback = vp_modern_avq_done;
    h->queue.priv = &h->card;
    h->info.vq = &h->queue;
    h->owner.admin_vq.info = &h->info;
    h->owner.pci_dev = h->owner.mdev.pci_dev = &h->function;
    driver_status(&h->owner.vdev, VIRTIO_CONFIG_S_DRIVER_OK);
    LAYER_EXPECT(h->owner.admin_vq.max_dev_parts_objects == h->limit);
    LAYER_EXPECT(h->card.front.driver_set == !without_front);
    LAYER_EXPECT(h->card.front.gets == h->limit &&
                 h->card.front.sets == h->limit);
    for (unsigned i = 0; i < members; i++) {
        h->vf[i] = (struct pci_dev){.owner = &h->owner.vdev, .vf = (int)i};
        h->vf[i].dev.driver_data = &h->guest[i];
        h->guest[i].core_device.pdev = &h->vf[i];
        LAYER_EXPECT(virtio_pci_admin_has_dev_parts(&h->vf[i]) ==
                     (h->limit > 0));
        virtiovf_set_migratable(&h->guest[i]);
        virtiovf_open_migration(&h->guest[i]);
        live(h, i);
    }
}

/* ---- A move ------------------------------------------------------------------------- */

enum stage { WAITS, PRECOPY, STOPCOPY, ARRIVED, RESUMING, OVER };
enum line { CLEAN, DAMAGED, CUT };

struct move {
    enum stage stage;
    enum line line;
    bool precopy;
    unsigned from, to; /* members, from 0 */
    struct file *file;
    size_t length, at;
    char bytes[LINE_MAX_BYTES];
};

static struct move moves[MOVES_MAX];
static unsigned move_count;

/* Every member but those that are being loaded holds what it should; those that
 * no guest moves from or to run, and have no object. */
static void all_as_they_should(void)
{
    bool loading[2][KAJURNAT_MEMBERS_MAX] = {{0}};
    bool named[2][KAJURNAT_MEMBERS_MAX] = {{0}};
    for (unsigned i = 0; i < move_count; i++) {
        loading[1][moves[i].to] = moves[i].stage == RESUMING;
        named[0][moves[i].from] = named[1][moves[i].to] = true;
    }
    for (unsigned k = 0; k < 2; k++) {
        struct layer_card *c = &hosts[k].card;
        LAYER_EXPECT(kajurnat_is_sound(c->card, c->bytes) == 1);
        for (unsigned i = 0; i < hosts[k].members; i++) {
            struct image now = holds(&hosts[k], i);
            struct told t = told_of(&hosts[k], i);
            LAYER_EXPECT(loading[k][i] ||
                         !memcmp(&now, &hosts[k].should[i], sizeof now));
            LAYER_EXPECT(named[k][i] || (t.state == KAJURNAT_MEMBER_RUNNING &&
                                         t.gets == 0 && t.sets == 0));
        }
    }
}

static struct file *set_state(struct host *h, unsigned i,
                              enum vfio_device_mig_state wanted)
{
    struct vfio_device *device = &h->guest[i].core_device.vdev;
    return device->mig_ops->migration_set_state(device, wanted);
}

static void expect_state(struct host *h, unsigned i,
                         enum vfio_device_mig_state wanted)
{
    struct vfio_device *device = &h->guest[i].core_device.vdev;
    enum vfio_device_mig_state now;
    LAYER_EXPECT(device->mig_ops->migration_get_state(device, &now) == 0);
    LAYER_EXPECT(now == wanted);
}

/* A file of the driver; none if all its object ids are taken. */
static bool opened(struct move *m, struct host *h, unsigned i,
                   enum vfio_device_mig_state wanted)
{
    struct file *file = set_state(h, i, wanted);
    if (IS_ERR(file)) {
        LAYER_EXPECT(PTR_ERR(file) == -ENOSPC);
        LAYER_EXPECT(h->owner.admin_vq.dev_parts_ida.taken ==
                     BIT_ULL(h->limit) - 1);
        counts.waits++;
        return false;
    }
    LAYER_EXPECT(file != NULL);
    expect_state(h, i, wanted);
    m->file = file;
    return true;
}

/* What the guest's other end does when it gives up: the file, then the device,
 * is closed, and the function reset. */
static void close_guest(struct move *m, struct host *h, unsigned i)
{
    fput(m->file);
    m->file = NULL;
    virtiovf_close_migration(&h->guest[i]);
    no_object_left(h, i);
    reset_member(h, i);
    virtiovf_open_migration(&h->guest[i]);
}

/* One read; whether it gave bytes, or the end that it should have. */
static bool read_piece(struct move *m, long end)
{
    ssize_t got = m->file->f_op->read(m->file, m->bytes + m->length,
                                      1 + draw(PIECE_MAX), NULL);
    counts.pieces++;
    if (got == end) {
        return false;
    }
    LAYER_EXPECT(got > 0);
    m->length += (size_t)got;
    LAYER_EXPECT(m->length < sizeof m->bytes - PIECE_MAX);
    return true;
}

static void step_waits(struct move *m)
{
    struct host *h = &hosts[0];
    unsigned long size = 0;
    struct vfio_device *device = &h->guest[m->from].core_device.vdev;
    if (draw(4) == 0) { /* asked before there is an object */
        int got = device->mig_ops->migration_get_data_size(device, &size);
        LAYER_EXPECT(got == -ENOSPC ||
                     (got == 0 &&
                      size == KAJURNAT_CAPTURE_BYTES(h->queues[m->from])));
    }
    if (opened(m, h, m->from,
               m->precopy ? VFIO_DEVICE_STATE_PRE_COPY
                          : VFIO_DEVICE_STATE_STOP_COPY)) {
        m->stage = m->precopy ? PRECOPY : STOPCOPY;
        counts.lists++;
    } else if (told_of(h, m->from).state == KAJURNAT_MEMBER_STOPPED) {
        LAYER_EXPECT(set_state(h, m->from, VFIO_DEVICE_STATE_RUNNING) == NULL);
    }
}

static void step_precopy(struct move *m)
{
    struct host *h = &hosts[0];
    struct vfio_precopy_info info = {.argsz = sizeof info};
    LAYER_EXPECT(told_of(h, m->from).state == KAJURNAT_MEMBER_RUNNING);
    if (draw(3) == 0) {
        live(h, m->from);
    } else if (read_piece(m, -ENOMSG)) {
        return;
    } else if (draw(3)) {
        LAYER_EXPECT(m->file->f_op->unlocked_ioctl(
                         m->file, VFIO_MIG_GET_PRECOPY_INFO,
                         (unsigned long)&info) == 0);
        LAYER_EXPECT(info.initial_bytes + info.dirty_bytes > 0);
        counts.lists++;
    } else {
        LAYER_EXPECT(!set_state(h, m->from, VFIO_DEVICE_STATE_STOP_COPY));
        m->stage = STOPCOPY;
        counts.lists++;
    }
}

static void step_stopcopy(struct move *m)
{
    struct host *h = &hosts[0];
    unsigned long size = 0;
    struct vfio_device *device = &h->guest[m->from].core_device.vdev;
    LAYER_EXPECT(told_of(h, m->from).state == KAJURNAT_MEMBER_STOPPED);
    LAYER_EXPECT(device->mig_ops->migration_get_data_size(device, &size) == 0);
    LAYER_EXPECT(size == KAJURNAT_CAPTURE_BYTES(h->queues[m->from]));
    if (read_piece(m, 0)) {
        return;
    }
    fput(m->file);
    m->file = NULL;
    LAYER_EXPECT(!set_state(h, m->from, VFIO_DEVICE_STATE_STOP));
    no_object_left(h, m->from);
    if (m->line == DAMAGED) {
        for (unsigned k = 1 + draw(3); k > 0; k--) {
            m->bytes[draw((u32)m->length)] ^= (char)(1 << draw(8));
        }
    }
    m->length = m->line == CUT ? draw((u32)m->length) : m->length;
    m->stage = ARRIVED;
}

/* The driver's answer at the other end, once it has refused a write. */
static void refused(struct move *m, long answer)
{
    struct host *h = &hosts[1];
    bool fewer = h->queues[m->to] < hosts[0].queues[m->from];
    m->stage = OVER;
    if (m->line == DAMAGED) {
        h->should[m->to] = holds(h, m->to); /* lists before the damage are set */
        counts.damaged++;
    } else {
        LAYER_EXPECT(answer == -EINVAL);
        LAYER_EXPECT(fewer || foreign);
        *(fewer ? &counts.fewer : &counts.features) += 1;
    }
    all_as_they_should();
    close_guest(m, h, m->to);
    reset_member(&hosts[0], m->from);
}

static void arrived_whole(struct move *m)
{
    struct host *h = &hosts[1];
    unsigned queues = hosts[0].queues[m->from];
    m->stage = OVER;
    LAYER_EXPECT(m->line == DAMAGED ||
                 (!foreign && h->queues[m->to] >= queues));
    fput(m->file);
    m->file = NULL;
    LAYER_EXPECT(!set_state(h, m->to, VFIO_DEVICE_STATE_RUNNING));
    expect_state(h, m->to, VFIO_DEVICE_STATE_RUNNING);
    LAYER_EXPECT(told_of(h, m->to).state == KAJURNAT_MEMBER_RUNNING);
    no_object_left(h, m->to);
    if (m->line == DAMAGED) {
        h->should[m->to] = holds(h, m->to);
        counts.damage_taken++;
    } else {
        for (unsigned p = 0; p < PARTS; p++) {
            if (has(p, queues)) {
                memcpy(h->should[m->to].value[p],
                       hosts[0].should[m->from].value[p], parts[p].size);
            }
        }
        *(h->queues[m->to] > queues ? &counts.more : &counts.whole) += 1;
        counts.precopied += m->precopy;
    }
    all_as_they_should();
    virtiovf_close_migration(&hosts[0].guest[m->from]);
    reset_member(&hosts[0], m->from);
}

static void step_resuming(struct move *m)
{
    struct host *h = &hosts[1];
    size_t piece = 1 + draw(PIECE_MAX);
    ssize_t took;
    LAYER_EXPECT(told_of(h, m->to).state == KAJURNAT_MEMBER_STOPPED);
    if (m->at == m->length && m->line != CUT) {
        arrived_whole(m);
        return;
    }
    if (m->at == m->length) { /* the line ends in the middle */
        counts.cut++;
        m->stage = OVER;
        h->should[m->to] = holds(h, m->to);
        all_as_they_should();
        close_guest(m, h, m->to);
        reset_member(&hosts[0], m->from);
        return;
    }
    piece = min(piece, m->length - m->at);
    took = m->file->f_op->write(m->file, m->bytes + m->at, piece, NULL);
    counts.pieces++;
    if (took < 0) {
        refused(m, took);
        return;
    }
    LAYER_EXPECT((size_t)took == piece);
    m->at += piece;
}

/* A driver that is closed, or a function that is reset, while it has a file. */
static void interrupt(struct move *m)
{
    bool source = m->stage == PRECOPY || m->stage == STOPCOPY;
    struct host *h = &hosts[!source];
    unsigned i = source ? m->from : m->to;
    if (draw(2)) {
        *(source ? &counts.closed_source : &counts.closed_target) += 1;
        close_guest(m, h, i);
    } else { /* the card has ended the object; the driver ends it too late */
        u64 taken = h->owner.admin_vq.dev_parts_ida.taken;
        counts.reset_under++;
        reset_member(h, i);
        virtiovf_migration_reset_done(&h->vf[i]);
        expect_state(h, i, VFIO_DEVICE_STATE_RUNNING);
        LAYER_EXPECT(h->owner.admin_vq.dev_parts_ida.taken == taken);
        counts.ids_lost++;
        fput(m->file);
        m->file = NULL;
    }
    if (!source) {
        reset_member(&hosts[0], m->from);
    }
    m->stage = OVER;
    all_as_they_should();
}

static void step(struct move *m, bool may_interrupt)
{
    if (m->file && may_interrupt && draw(60) == 0) {
        interrupt(m);
        return;
    }
    switch (m->stage) {
    case WAITS:
        step_waits(m);
        break;
    case PRECOPY:
        step_precopy(m);
        break;
    case STOPCOPY:
        step_stopcopy(m);
        break;
    case ARRIVED:
        if (opened(m, &hosts[1], m->to, VFIO_DEVICE_STATE_RESUMING)) {
            m->stage = RESUMING;
        } else {
            LAYER_EXPECT(!set_state(&hosts[1], m->to,
                                    VFIO_DEVICE_STATE_RUNNING));
        }
        break;
    case RESUMING:
        step_resuming(m);
        break;
    case OVER:
        break;
    }
}

/* ---- Trials -------------------------------------------------------------------------- */

static void shuffle(unsigned *numbers, unsigned count)
{
    for (unsigned i = 0; i < count; i++) {
        numbers[i] = i;
    }
    for (unsigned i = count; i > 1; i--) {
        unsigned k = draw(i), other = numbers[k];
        numbers[k] = numbers[i - 1];
        numbers[i - 1] = other;
    }
}

/* Until all moves are over; or none can go on, all ids being lost. */
static void run_moves(bool may_interrupt)
{
    unsigned over = 0, idle = 0;
    while (over < move_count && idle < 2000) {
        struct move *m = &moves[draw(move_count)];
        unsigned long waited = counts.waits;
        if (m->stage == OVER) {
            continue;
        }
        step(m, may_interrupt);
        idle = counts.waits > waited ? idle + 1 : 0;
        over += m->stage == OVER;
    }
    for (unsigned i = 0; i < move_count; i++) {
        LAYER_EXPECT(moves[i].stage == OVER || !moves[i].file);
        counts.stuck += moves[i].stage != OVER;
    }
}

/* The owner's driver starts anew: card and front are fresh, and all ids free. */
static void owner_reset(struct host *h)
{
    driver_reset(&h->owner.vdev);
    driver_status(&h->owner.vdev, VIRTIO_CONFIG_S_DRIVER_OK);
    LAYER_EXPECT(h->owner.admin_vq.dev_parts_ida.taken == 0);
    LAYER_EXPECT(h->owner.admin_vq.max_dev_parts_objects == h->limit);
    counts.owner_resets++;
}

static void trial(void)
{
    u8 queues[2][KAJURNAT_MEMBERS_MAX], features[2][KAJURNAT_FEATURES_BYTES];
    unsigned from[KAJURNAT_MEMBERS_MAX], to[KAJURNAT_MEMBERS_MAX];
    unsigned members = 1 + draw(16), gets = draw(20) ? 1 + draw(8) : 0;
    unsigned sets = 1 + draw(8);
    bool interrupted = draw(4) == 0;

    foreign = draw(8) == 0;
    move_count = 1 + draw(min(members, MOVES_MAX));
    for (unsigned i = 0; i < KAJURNAT_MEMBERS_MAX; i++) {
        queues[0][i] = (u8)(1 + draw(4));
        features[0][i] = features[1][i] = (u8)draw(256);
    }
    memset(queues[1], 1, sizeof queues[1]);
    shuffle(from, members);
    shuffle(to, members);
    for (unsigned i = 0; i < members; i++) {
        queues[1][to[i]] = (u8)(draw(6) ? queues[0][from[i]] : 1 + draw(4));
    }
    features[1][draw(16)] ^= (u8)(foreign ? 1 << draw(8) : 0);
    for (unsigned k = 0; k < 2; k++) {
        power_on(&hosts[k], members, queues[k], gets, sets, features[k], false);
    }
    counts.trials++;
    if (gets == 0) {
        counts.without_objects++;
        return;
    }
    for (unsigned i = 0; i < move_count; i++) {
        moves[i] = (struct move){.from = from[i], .to = to[i]};
        moves[i].precopy = draw(2);
        moves[i].line = draw(6) ? CLEAN : draw(2) ? DAMAGED : CUT;
    }
    counts.moves += move_count;
    run_moves(interrupted);
    all_as_they_should();
    for (unsigned k = 0; k < 2; k++) {
        for (unsigned i = 0; i < members; i++) {
            virtiovf_close_migration(&hosts[k].guest[i]);
            no_object_left(&hosts[k], i);
        }
        LAYER_EXPECT(interrupted ||
                     hosts[k].owner.admin_vq.dev_parts_ida.taken == 0);
        if (draw(4) == 0) {
            owner_reset(&hosts[k]);
        }
    }
    all_as_they_should();
    LAYER_EXPECT(layer_allocated == 0);
}

static void without_the_front(void)
{
    const u8 queues[1] = {1}, features[KAJURNAT_FEATURES_BYTES] = {0};
    power_on(&hosts[0], 1, queues, 1, 1, features, true);
    layer_errors = layer_refused = 0; /* the driver asked, and was refused */
}

static void summary(const char *kernel)
{
    printf("Linux %s: drivers/vfio/pci/virtio/migrate.c and\n"
           "drivers/virtio/virtio_pci_modern.c, as they are, as hosts of two "
           "cards\n\n",
           kernel);
    printf("without the front   the driver does not use device parts\n");
    printf("with it, seed %lu:\n", seed);
#define ROW(number, text) printf("%10lu  %s\n", counts.number, text)
    ROW(trials, "trials, of cards with 1 to 16 members, each 1 to 4 queues");
    ROW(without_objects, "  with no get object: the driver does not use device parts");
    ROW(moves, "guests to move, up to four at once");
    ROW(whole, "  moved whole, and equal");
    ROW(more, "  moved to a member with more queues, and equal where they have both");
    ROW(precopied, "  of these with pre-copy");
    ROW(features, "  refused: other device features");
    ROW(fewer, "  refused: fewer queues");
    ROW(damaged, "  refused: a damaged line");
    ROW(damage_taken, "  a damaged line taken, or waited on: some values are others");
    ROW(cut, "  line cut in the middle");
    ROW(closed_source, "  driver of the source closed in the middle");
    ROW(closed_target, "  driver of the destination closed in the middle");
    ROW(reset_under, "  member reset in the middle");
    ROW(ids_lost, "    object ids that the driver lost so, until it starts anew");
    ROW(stuck, "  not moved, since all ids were lost");
    ROW(lists, "lists of parts captured");
    ROW(pieces, "reads and writes, of 1 to 700 bytes");
    ROW(waits, "times that a guest waited for an object id");
    ROW(resets, "resets of a member, by hand back and wipe");
    ROW(owner_resets, "resets of the card by its driver");
    printf("%10lu  commands, of which %lu refused; the queue was full %lu times\n",
           layer_commands, layer_refused, layer_full);
    printf("%10lu  warnings of the driver; %lu errors, one for each refused "
           "command\n",
           layer_warnings, layer_errors);
}

int main(int count, char **arguments)
{
    unsigned long trials = count > 2 ? strtoul(arguments[2], NULL, 0) : 1000;
    seed = count > 1 ? strtoul(arguments[1], NULL, 0) : 1;
    state = seed * 0x9e3779b97f4a7c15ULL + 1;
    without_the_front();
    layer_queue_full = one_in_fifty;
    for (trial_seed = 0; trial_seed < trials; trial_seed++) {
        trial();
        LAYER_EXPECT(layer_errors == layer_refused);
        LAYER_EXPECT(layer_warnings == 0);
    }
    summary(count > 3 ? arguments[3] : "(unnamed)");
    return EXIT_SUCCESS;
}
