/*
 * The layouts of kajurnat.h and capabilities.h against those of the Linux
 * kernel, by the compiler alone: the offsets of the common configuration, and,
 * as far as linux/virtio_pci.h is recent enough to have them, the frame of
 * administration commands, and all structs of the commands that a card and its
 * front answer.
 */
#include "capabilities.h"
#include "common.h"
#include "kajurnat.h"

#include <linux/version.h>
#include <linux/virtio_pci.h>

#define SAME(ours, theirs) _Static_assert((ours) == (theirs), #theirs)

/* A field of a struct: where it is, and its length. */
#define FIELD(at, length, type, field)             \
    SAME(at, offsetof(struct type, field));        \
    SAME(length, sizeof(((struct type *)0)->field))

FIELD(KAJURNAT_COMMON_DEVICE_FEATURE_SELECT, 4, virtio_pci_common_cfg,
      device_feature_select);
FIELD(KAJURNAT_COMMON_DRIVER_FEATURE_SELECT, 4, virtio_pci_common_cfg,
      guest_feature_select);
FIELD(KAJURNAT_COMMON_CONFIG_MSIX_VECTOR, 2, virtio_pci_common_cfg,
      msix_config);
FIELD(KAJURNAT_COMMON_QUEUE_SELECT, 2, virtio_pci_common_cfg, queue_select);

#ifdef VIRTIO_ADMIN_CMD_LIST_QUERY
#define FRAME ", the frame"

SAME(KAJURNAT_CMD_LIST_QUERY, VIRTIO_ADMIN_CMD_LIST_QUERY);
SAME(KAJURNAT_CMD_LIST_USE, VIRTIO_ADMIN_CMD_LIST_USE);
SAME(KAJURNAT_GROUP_SRIOV, VIRTIO_ADMIN_GROUP_TYPE_SRIOV);
SAME(KAJURNAT_STATUS_OK, VIRTIO_ADMIN_STATUS_OK);

FIELD(0, 2, virtio_admin_cmd_hdr, opcode);
FIELD(2, 2, virtio_admin_cmd_hdr, group_type);
FIELD(4, 12, virtio_admin_cmd_hdr, reserved1);
FIELD(16, 8, virtio_admin_cmd_hdr, group_member_id);
SAME(KAJURNAT_REQUEST_HEAD_BYTES, sizeof(struct virtio_admin_cmd_hdr));

FIELD(0, 2, virtio_admin_cmd_status, status);
FIELD(2, 2, virtio_admin_cmd_status, status_qualifier);
FIELD(4, 4, virtio_admin_cmd_status, reserved2);
SAME(KAJURNAT_REPLY_HEAD_BYTES, sizeof(struct virtio_admin_cmd_status));
#else
#define FRAME ""
#endif

#ifdef VIRTIO_ADMIN_CMD_DEV_PARTS_GET
#define COMMANDS ", capabilities, objects, parts and mode"

SAME(CAPABILITIES_CMD_LIST, VIRTIO_ADMIN_CMD_CAP_ID_LIST_QUERY);
SAME(CAPABILITIES_CMD_GET, VIRTIO_ADMIN_CMD_DEVICE_CAP_GET);
SAME(CAPABILITIES_CMD_SET, VIRTIO_ADMIN_CMD_DRIVER_CAP_SET);
SAME(KAJURNAT_CMD_RESOURCE_OBJ_CREATE, VIRTIO_ADMIN_CMD_RESOURCE_OBJ_CREATE);
SAME(KAJURNAT_CMD_RESOURCE_OBJ_DESTROY, VIRTIO_ADMIN_CMD_RESOURCE_OBJ_DESTROY);
SAME(KAJURNAT_CMD_DEV_PARTS_METADATA_GET,
     VIRTIO_ADMIN_CMD_DEV_PARTS_METADATA_GET);
SAME(KAJURNAT_CMD_DEV_PARTS_GET, VIRTIO_ADMIN_CMD_DEV_PARTS_GET);
SAME(KAJURNAT_CMD_DEV_PARTS_SET, VIRTIO_ADMIN_CMD_DEV_PARTS_SET);
SAME(KAJURNAT_CMD_DEV_MODE_SET, VIRTIO_ADMIN_CMD_DEV_MODE_SET);

/* Capabilities: capabilities.c reads and writes at these places. */
SAME(CAPABILITIES_GROUP_SELF, VIRTIO_ADMIN_GROUP_TYPE_SELF);
SAME(CAPABILITIES_DEV_PARTS, VIRTIO_DEV_PARTS_CAP);
FIELD(0, 8, virtio_admin_cmd_query_cap_id_result, supported_caps);
FIELD(0, 2, virtio_admin_cmd_cap_get_data, id);
SAME(8, sizeof(struct virtio_admin_cmd_cap_get_data));
FIELD(0, 2, virtio_admin_cmd_cap_set_data, id);
SAME(8, offsetof(struct virtio_admin_cmd_cap_set_data, cap_specific_data));
FIELD(0, 1, virtio_dev_parts_cap, get_parts_resource_objects_limit);
FIELD(1, 1, virtio_dev_parts_cap, set_parts_resource_objects_limit);
SAME(2, sizeof(struct virtio_dev_parts_cap));

/* Objects. */
FIELD(0, 2, virtio_admin_cmd_resource_obj_cmd_hdr, type);
FIELD(4, 4, virtio_admin_cmd_resource_obj_cmd_hdr, id);
SAME(KAJURNAT_OBJ_HEADER_BYTES,
     sizeof(struct virtio_admin_cmd_resource_obj_cmd_hdr));
FIELD(0, 8, virtio_admin_cmd_resource_obj_create_data, hdr);
FIELD(8, 8, virtio_admin_cmd_resource_obj_create_data, flags);
SAME(16, offsetof(struct virtio_admin_cmd_resource_obj_create_data,
                  resource_obj_specific_data));
FIELD(0, 1, virtio_resource_obj_dev_parts, type);
SAME(8, sizeof(struct virtio_resource_obj_dev_parts));
SAME(KAJURNAT_OBJ_DEV_PARTS, VIRTIO_RESOURCE_OBJ_DEV_PARTS);
SAME(KAJURNAT_OBJ_GET, VIRTIO_RESOURCE_OBJ_DEV_PARTS_TYPE_GET);
SAME(KAJURNAT_OBJ_SET, VIRTIO_RESOURCE_OBJ_DEV_PARTS_TYPE_SET);

/* Parts. */
FIELD(0, 2, virtio_dev_part_hdr, part_type);
FIELD(2, 1, virtio_dev_part_hdr, flags);
FIELD(3, 1, virtio_dev_part_hdr, reserved);
FIELD(4, 4, virtio_dev_part_hdr, selector.pci_common_cfg.offset);
FIELD(4, 2, virtio_dev_part_hdr, selector.vq_index.index);
FIELD(4, 8, virtio_dev_part_hdr, selector);
FIELD(12, 4, virtio_dev_part_hdr, length);
SAME(KAJURNAT_PART_HEADER_BYTES, sizeof(struct virtio_dev_part_hdr));
SAME(KAJURNAT_PART_F_OPTIONAL, 1 << VIRTIO_DEV_PART_F_OPTIONAL);
FIELD(0, 16, virtio_dev_part, hdr);
SAME(16, offsetof(struct virtio_dev_part, value));

FIELD(0, 8, virtio_admin_cmd_dev_parts_metadata_data, hdr);
FIELD(8, 1, virtio_admin_cmd_dev_parts_metadata_data, type);
SAME(16, sizeof(struct virtio_admin_cmd_dev_parts_metadata_data));
SAME(KAJURNAT_METADATA_SIZE, VIRTIO_ADMIN_CMD_DEV_PARTS_METADATA_TYPE_SIZE);
SAME(KAJURNAT_METADATA_COUNT, VIRTIO_ADMIN_CMD_DEV_PARTS_METADATA_TYPE_COUNT);
SAME(KAJURNAT_METADATA_LIST, VIRTIO_ADMIN_CMD_DEV_PARTS_METADATA_TYPE_LIST);
FIELD(0, 4, virtio_admin_cmd_dev_parts_metadata_result, parts_size.size);
FIELD(0, 4, virtio_admin_cmd_dev_parts_metadata_result, hdr_list_count.count);
FIELD(0, 4, virtio_admin_cmd_dev_parts_metadata_result, hdr_list.count);
SAME(8, offsetof(struct virtio_admin_cmd_dev_parts_metadata_result,
                 hdr_list.hdrs));

FIELD(0, 8, virtio_admin_cmd_dev_parts_get_data, hdr);
FIELD(8, 1, virtio_admin_cmd_dev_parts_get_data, type);
SAME(16, offsetof(struct virtio_admin_cmd_dev_parts_get_data, hdr_list));
SAME(KAJURNAT_PARTS_SELECTED, VIRTIO_ADMIN_CMD_DEV_PARTS_GET_TYPE_SELECTED);
SAME(KAJURNAT_PARTS_ALL, VIRTIO_ADMIN_CMD_DEV_PARTS_GET_TYPE_ALL);
FIELD(0, 8, virtio_admin_cmd_dev_parts_set_data, hdr);
SAME(8, offsetof(struct virtio_admin_cmd_dev_parts_set_data, parts));

/* Mode. */
FIELD(0, 1, virtio_admin_cmd_dev_mode_set_data, flags);
SAME(1, sizeof(struct virtio_admin_cmd_dev_mode_set_data));
SAME(KAJURNAT_MODE_STOP, 1 << VIRTIO_ADMIN_CMD_DEV_MODE_F_STOPPED);
#else
#define COMMANDS " (this header has no device parts)"
#endif

int main(int count, char **arguments)
{
    take_no_arguments(count, arguments, "compares layouts with those of Linux");
    printf("layouts as in linux/virtio_pci.h of Linux %d.%d.%d: the common "
           "configuration" FRAME COMMANDS "\n",
           LINUX_VERSION_CODE >> 16, LINUX_VERSION_CODE >> 8 & 0xff,
           LINUX_VERSION_CODE & 0xff);
    return EXIT_SUCCESS;
}
