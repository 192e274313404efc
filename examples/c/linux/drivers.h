/*
 * The rest of what drivers/virtio/virtio_pci_modern.c and
 * drivers/vfio/pci/virtio/migrate.c see of the kernel, over layer.h and the
 * kernel's own uapi headers. What is declared here without a body is called by
 * nothing that the trials reach; the linker leaves it out.
 */
#ifndef DRIVERS_H
#define DRIVERS_H

#include "layer.h"

#include <uapi/linux/pci_regs.h>
#include <uapi/linux/vfio.h>
#include <uapi/linux/virtio_config.h>
#include <uapi/linux/virtio_pci.h>

/* ---- Devices ---------------------------------------------------------------- */

struct device {
    void *driver_data;
};
#define dev_get_drvdata(device) ((device)->driver_data)
#define PCI_STD_NUM_BARS 6
struct pci_dev {
    struct device dev;
    struct virtio_device *owner; /* of a virtual function */
    int vf;
    struct layer_card *card; /* of a physical function */
};
#define pci_iov_vf_id(pdev) ((pdev)->vf)
int pci_find_ext_capability(struct pci_dev *, int);
u8 pci_find_capability(struct pci_dev *, int);
u8 pci_find_next_capability(struct pci_dev *, u8, int);
int pci_read_config_byte(const struct pci_dev *, int, u8 *);
int pci_read_config_dword(const struct pci_dev *, int, u32 *);
u64 pci_resource_len(struct pci_dev *, int);
u64 pci_resource_start(struct pci_dev *, int);
int pci_irq_vector(struct pci_dev *, unsigned int);
void pci_iounmap(struct pci_dev *, void *);
void synchronize_irq(unsigned int);
void msleep(unsigned int);
typedef u64 resource_size_t, phys_addr_t;
unsigned int ioread8(const void *);
unsigned int ioread16(const void *);
unsigned int ioread32(const void *);
void iowrite8(u8, void *);
void iowrite16(u16, void *);
void iowrite32(u32, void *);

/* ---- virtio ------------------------------------------------------------------ */

#define VIRTIO_FEATURES_U64S 2
#define VIRTIO_FEATURES_DWORDS 4
struct cpumask;
typedef struct cpumask *cpumask_var_t;
struct irq_affinity;
struct virtqueue_info {
    const char *name;
};
struct virtio_shm_region {
    u64 addr, len;
};
struct virtio_device_id {
    u32 device, vendor;
};
struct virtio_config_ops;
struct virtio_device {
    struct device dev;
    struct virtio_device_id id;
    const struct virtio_config_ops *config;
    struct list_head vqs;
    u64 features, features_array[VIRTIO_FEATURES_U64S];
};
struct virtio_config_ops {
    void (*get)(struct virtio_device *, unsigned int, void *, unsigned int);
    void (*set)(struct virtio_device *, unsigned int, const void *,
                unsigned int);
    u32 (*generation)(struct virtio_device *);
    u8 (*get_status)(struct virtio_device *);
    void (*set_status)(struct virtio_device *, u8);
    void (*reset)(struct virtio_device *);
    int (*find_vqs)(struct virtio_device *, unsigned int, struct virtqueue **,
                    struct virtqueue_info *, struct irq_affinity *);
    void (*del_vqs)(struct virtio_device *);
    void (*synchronize_cbs)(struct virtio_device *);
    u64 (*get_features)(struct virtio_device *);
    void (*get_extended_features)(struct virtio_device *, u64 *);
    int (*finalize_features)(struct virtio_device *);
    const char *(*bus_name)(struct virtio_device *);
    int (*set_vq_affinity)(struct virtqueue *, const struct cpumask *);
    const struct cpumask *(*get_vq_affinity)(struct virtio_device *, int);
    bool (*get_shm_region)(struct virtio_device *, struct virtio_shm_region *,
                           u8);
    int (*disable_vq_and_reset)(struct virtqueue *);
    int (*enable_vq_after_reset)(struct virtqueue *);
    bool (*create_avq)(struct virtio_device *);
    void (*destroy_avq)(struct virtio_device *);
};
/* the administration queue is the one feature that is looked at */
#define virtio_has_feature(vdev, f) ((void)(vdev), (f) == VIRTIO_F_ADMIN_VQ)
#define __virtio_test_bit virtio_has_feature
#define __virtio_set_bit(vdev, f) ((void)(vdev))
#define virtio_features_from_u64(to, from) ((void)((to)[0] = (from)))
struct virtio_admin_cmd {
    __le16 opcode;
    __le16 group_type;
    __le64 group_member_id;
    struct scatterlist *data_sg;
    struct scatterlist *result_sg;
    struct completion completion;
    u32 result_sg_size;
    int ret;
};
#define SMP_CACHE_BYTES 64
void vring_transport_features(struct virtio_device *);
struct virtqueue *vring_create_virtqueue();
void vring_del_virtqueue(struct virtqueue *);
u32 vring_notification_data(struct virtqueue *);
unsigned int virtqueue_get_vring_size(const struct virtqueue *);
u64 virtqueue_get_desc_addr(const struct virtqueue *);
u64 virtqueue_get_avail_addr(const struct virtqueue *);
u64 virtqueue_get_used_addr(const struct virtqueue *);

/* ---- VFIO ---------------------------------------------------------------------- */

struct vfio_device;
struct vfio_migration_ops {
    struct file *(*migration_set_state)(struct vfio_device *,
                                        enum vfio_device_mig_state);
    int (*migration_get_state)(struct vfio_device *,
                               enum vfio_device_mig_state *);
    int (*migration_get_data_size)(struct vfio_device *, unsigned long *);
};
struct vfio_device {
    unsigned int migration_flags;
    u8 precopy_info_v2;
    const struct vfio_migration_ops *mig_ops;
};
struct vfio_pci_core_device {
    struct vfio_device vdev;
    struct pci_dev *pdev;
};
struct vfio_region_info;
struct vfio_info_cap;
int vfio_mig_get_next_state(struct vfio_device *, enum vfio_device_mig_state,
                            enum vfio_device_mig_state,
                            enum vfio_device_mig_state *);
int vfio_check_precopy_ioctl(struct vfio_device *, unsigned int, unsigned long,
                             struct vfio_precopy_info *);

/* ---- Of virtio_pci_modern.c, which has them static (modern.c) ------------------- */

void driver_status(struct virtio_device *owner, u8 status);
void driver_reset(struct virtio_device *owner);

#endif
