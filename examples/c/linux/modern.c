/* The kernel's driver of a card's physical function, whole, and two of its
 * functions under names that the trials can call. */
#include <drivers/virtio/virtio_pci_modern.c>

void driver_status(struct virtio_device *owner, u8 status)
{
    vp_set_status(owner, status);
}

void driver_reset(struct virtio_device *owner)
{
    vp_reset(owner);
}
