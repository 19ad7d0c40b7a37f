/* Speaks to a USB device by Linux's usbfs, for the sessions of this folder.
 *
 *   usbfs NODE descriptors              the device's and the configuration's bytes, in hexadecimal
 *   usbfs NODE interrupt EP LENGTH N    N transfers from an interrupt endpoint, in hexadecimal
 *   usbfs NODE loop OUT IN LENGTH       writes bytes by one bulk endpoint, and reads them back by the other
 *   usbfs NODE iso IFACE ALT EP LENGTH  32 transfers of 8 isochronous packets, either way
 *   usbfs NODE unlink TYPE EP LENGTH    takes a transfer back; after one that is answered comes another
 *   usbfs NODE reset                    resets the device
 *
 * NODE is /dev/bus/usb/BBB/DDD. The interface 0 (of iso, IFACE) is claimed, and taken from a driver that has it. Each
 * ends with 0 where it went as it should, and says what it saw in a line. */
#include <errno.h>
#include <fcntl.h>
#include <linux/usbdevice_fs.h>
#include <stdio.h>
#include <stdlib.h>
#include <string.h>
#include <sys/ioctl.h>
#include <unistd.h>

#define MOST 65536
#define PACKETS 8
#define TRANSFERS 32

static unsigned char buffer[MOST], back[MOST];

static int fail(const char *what) {
    printf("%s: %s\n", what, strerror(errno));
    return 1;
}

static int print_bytes(const unsigned char *bytes, int count) {
    for (int i = 0; i < count; i++) printf("%02x", bytes[i]);
    printf("\n");
    return 0;
}

static int number(const char *word) { return (int)strtol(word, NULL, 0); }

static int claim(int device, unsigned interface) {
    struct usbdevfs_disconnect_claim asked = {.interface = interface};
    return ioctl(device, USBDEVFS_DISCONNECT_CLAIM, &asked);
}

static int bulk(int device, int endpoint, unsigned char *data, int length) {
    struct usbdevfs_bulktransfer asked = {endpoint, length, 10000, data};
    return ioctl(device, USBDEVFS_BULK, &asked);
}

static int interrupts(int device, int endpoint, int length, int count) {
    for (int i = 0; i < count; i++) {
        int got = bulk(device, endpoint, buffer, length);
        if (got < 0) return fail("interrupt");
        print_bytes(buffer, got);
    }
    return 0;
}

static int loop(int device, int out, int in, int length) {
    int got = 0, part;
    for (int i = 0; i < length; i++) buffer[i] = (unsigned char)(i * 7 + i / 256);
    if (bulk(device, out, buffer, length) != length) return fail("bulk out");
    for (; got < length; got += part) {
        part = bulk(device, in, back + got, length - got);
        if (part <= 0) return fail("bulk in");
    }
    if (memcmp(buffer, back, length)) return printf("other bytes came back\n"), 1;
    return printf("%d bytes came back\n", length), 0;
}

static struct usbdevfs_urb *new_urb(int type, int endpoint, int length, int packets) {
    struct usbdevfs_urb *urb = calloc(1, sizeof *urb + PACKETS * sizeof urb->iso_frame_desc[0]);
    urb->type = type;
    urb->endpoint = endpoint;
    urb->buffer = buffer;
    urb->buffer_length = packets ? packets * length : length;
    urb->number_of_packets = packets;
    urb->flags = packets ? USBDEVFS_URB_ISO_ASAP : 0;
    for (int i = 0; i < packets; i++) urb->iso_frame_desc[i].length = length;
    return urb;
}

static int iso(int device, int interface, int setting, int endpoint, int length) {
    struct usbdevfs_setinterface asked = {interface, setting};
    struct usbdevfs_urb *urb, *reaped;
    int whole = 0, bad = 0;
    if (ioctl(device, USBDEVFS_SETINTERFACE, &asked)) return fail("set interface");
    for (int n = 0; n < TRANSFERS; n++) {
        urb = new_urb(USBDEVFS_URB_TYPE_ISO, endpoint, length, PACKETS);
        if (ioctl(device, USBDEVFS_SUBMITURB, urb)) return fail("submit");
        if (ioctl(device, USBDEVFS_REAPURB, &reaped)) return fail("reap");
        bad += reaped->status != 0;
        for (int i = 0; i < PACKETS; i++) {
            whole += (int)urb->iso_frame_desc[i].actual_length == length;
            bad += urb->iso_frame_desc[i].status != 0;
        }
        free(urb);
    }
    printf("%d of %d packets were full, %d errors\n", whole, TRANSFERS * PACKETS, bad);
    return whole == 0 || bad != 0;
}

static int unlink_one(int device, int type, int endpoint, int length) {
    struct usbdevfs_urb *urb = new_urb(type, endpoint, length, 0), *reaped;
    int taken = 0;
    for (int n = 0; n < 10 && !taken; n++) {
        if (ioctl(device, USBDEVFS_SUBMITURB, urb)) return fail("submit");
        usleep(300000);
        taken = !ioctl(device, USBDEVFS_DISCARDURB, urb);
        if (ioctl(device, USBDEVFS_REAPURB, &reaped)) return fail("reap");
    }
    printf("status %d, %d bytes\n", reaped->status, reaped->actual_length);
    return reaped->status != -ENOENT && reaped->status != -ECONNRESET;
}

int main(int count, char **words) {
    if (count < 3) return 2;
    int device = open(words[1], O_RDWR);
    const char *what = words[2];
    if (device < 0) return fail(words[1]);
    if (!strcmp(what, "descriptors")) {
        int got = read(device, buffer, MOST);
        return got < 18 ? fail("descriptors") : print_bytes(buffer, got);
    }
    if (!strcmp(what, "reset")) return ioctl(device, USBDEVFS_RESET, 0) ? fail("reset") : puts("reset") < 0;
    int said[4] = {0};
    for (int i = 0; i < 4 && i + 3 < count; i++) said[i] = number(words[i + 3]);
    if (claim(device, strcmp(what, "iso") ? 0 : said[0])) return fail("claim");
    if (!strcmp(what, "interrupt") && count == 6) return interrupts(device, said[0], said[1], said[2]);
    if (!strcmp(what, "loop") && count == 6) return loop(device, said[0], said[1], said[2]);
    if (!strcmp(what, "iso") && count == 7) return iso(device, said[0], said[1], said[2], said[3]);
    if (!strcmp(what, "unlink") && count == 6) return unlink_one(device, said[0], said[1], said[2]);
    return 2;
}
