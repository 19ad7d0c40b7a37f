#!/bin/busybox sh
# The init of a guest of bench/peers/run. It loads what its role needs, brings its network up, plays the sessions of its
# role, and ends the machine. Each step is a line '@@ ok STEP: what was seen' or '@@ FAILED STEP: ..' on the console.
/bin/busybox --install -s /bin
export PATH=/bin:/sbin:/usr/bin:/usr/sbin
mount -t proc proc /proc
mount -t sysfs sys /sys
mount -t devtmpfs dev /dev
mkdir -p /run /var/run /dev/bus/usb /mnt
GATEWAY=10.0.2.2

say() { echo "@@ $*"; }

# step NAME COMMAND..: runs it, and tells how it went, with the last line that it printed.
step() {
    local told=$1
    shift
    if "$@" < /dev/null > /run/said 2>&1; then
        say "ok $told: $(tail -n 1 /run/said | cut -c 1-100)"
    else
        say "FAILED $told: $(tail -n 3 /run/said | tr '\n' ' ' | cut -c 1-200)"
        return 1
    fi
}

# Waits for at most 30 seconds until the command succeeds.
await() {
    for _ in $(seq 150); do
        "$@" > /dev/null 2>&1 && return
        usleep 200000
    done
    echo "not within 30 seconds: $*"
    return 1
}

# The folder of a device in sysfs, by vendor:product.
folder_of() {
    for found in /sys/bus/usb/devices/*/idVendor; do
        found=${found%/idVendor}
        [ "$(cat "$found/idVendor"):$(cat "$found/idProduct")" = "$1" ] && echo "$found" && return
    done 2> /dev/null
    return 1
}

node_of() {
    found=$(folder_of "$1") || return 1
    printf '/dev/bus/usb/%03d/%03d\n' "$(cat "$found/busnum")" "$(cat "$found/devnum")"
}

usbfs() {
    node=$(node_of "$1") || { echo "there is no device $1"; return 1; }
    shift
    /usr/bin/usbfs "$node" "$@"
}

is_gone() { ! folder_of "$1"; }

# The device's configuration is set, so that its interfaces and their drivers are there.
is_up() { found=$(folder_of "$1") && [ -n "$(cat "$found/bConfigurationValue" 2> /dev/null)" ]; }

disk() { ls /dev/sd[a-z] 2> /dev/null | head -n 1; }

has_disk() { [ -b "$(disk)" ] && [ "$(cat "/sys/block/$(basename "$(disk)")/size")" -gt 0 ]; }

forget_cache() { sync && echo 3 > /proc/sys/vm/drop_caches; }

# copy_disk SIZE COUNT: writes so many pieces to the disk, and reads them back past the system's cache.
copy_disk() {
    dd if=/dev/urandom of=/run/written bs="$1" count="$2" 2> /dev/null &&
        dd if=/run/written of="$(disk)" bs="$1" conv=fsync 2> /dev/null &&
        forget_cache &&
        dd if="$(disk)" of=/run/read bs="$1" count="$2" 2> /dev/null &&
        cmp /run/written /run/read && echo "$2 times $1 bytes were written, and read back"
}

# Makes a file system on the disk, and reads a file back once that is mounted anew.
keep_file() {
    dd if=/dev/urandom of=/run/file bs=1k count=12 2> /dev/null
    mkfs.minix "$(disk)" > /dev/null && mount -t minix "$(disk)" /mnt && cp /run/file /mnt/file && umount /mnt || return
    forget_cache
    mount -t minix "$(disk)" /mnt && cmp /run/file /mnt/file && umount /mnt &&
        echo "blocks, and a file of a file system, were written and read back"
}

# The report of a key that bench/peers/run presses once it reads this.
press_key() {
    say "key" > /dev/console
    usbfs "$1" interrupt 0x81 8 1
}

# transfers KIND ID, and the rest of what a device of the kind can do
transfers() {
    case $1 in
        keyboard) usbfs "$2" interrupt 0x81 8 3 ;;
        loop) usbfs "$2" loop 0x01 0x81 512 && usbfs "$2" loop 0x01 0x81 16384 && usbfs "$2" loop 0x01 0x81 65536 ;;
        tone) usbfs "$2" iso 0 1 0x81 192 ;;
        disk) await has_disk && copy_disk 64k 16 ;;
        blocks) await has_disk && copy_disk 512 64 && keep_file ;;
        keys) press_key "$2" ;;
        sound) usbfs "$2" iso 1 1 0x01 192 ;;
    esac
}

unlinks() {
    case $1 in
        loop) usbfs "$2" unlink 3 0x81 512 ;;
        keys) usbfs "$2" unlink 1 0x81 8 ;;
        *) echo "none: no transfer of its waits" ;;
    esac
}

# What is done with a device that has come, whichever way: it is enumerated, moves data, is reset, moves data again, and
# has a transfer taken back.
use() {
    step "$1: enumerates" usbfs "$2" descriptors
    step "$1: transfers" transfers "$3" "$2"
    step "$1: resets" usbfs "$2" reset
    step "$1: transfers behind the reset" transfers "$3" "$2"
    step "$1: unlinks" unlinks "$3" "$2"
}

attach() {
    usbip --tcp-port "$1" attach -r $GATEWAY -b 1-1 && await is_up "$2"
}

lists() {
    usbip --tcp-port "$1" list -r $GATEWAY > /run/listed 2>&1
    grep "$2" /run/listed
}

detach() {
    local port
    port=$(usbip port 2> /dev/null | sed -n 's/^Port \([0-9]*\): <Port in Use>.*/\1/p' | head -n 1)
    usbip detach -p "$port" && await is_gone "$1"
}

# A client of the gateway: attach, use, detach, and come again.
client_session() {
    step "$1: lists" lists "$2" "$3" || return
    step "$1: attaches" attach "$2" "$3" || return
    step "$1: port" sh -c "usbip port 2>/dev/null | grep '<Port in Use>'"
    use "$1" "$3" "$4"
    step "$1: detaches" detach "$3"
    step "$1: attaches again" attach "$2" "$3" || return
    step "$1: transfers again" transfers "$4" "$3"
    step "$1: detaches again" detach "$3"
}

# sees_loss MARK KIND ID: what waits, or runs, fails once bench/peers/run has read the mark and has taken the device away.
# A read that waits ends with ESHUTDOWN.
sees_loss() {
    say "$1" > /dev/console
    case $2 in
        blocks)
            while copy_disk 512 64; do :; done > /dev/null 2>&1
            echo "a copy failed"
            ;;
        *)
            usbfs "$3" interrupt 0x81 512 1 > /run/lost
            cat /run/lost
            grep -q 'endpoint shutdown' /run/lost
            ;;
    esac
}

# The kernel's own ports: 004 stands for a free one.
VHCI=/sys/devices/platform/vhci_hcd.0

has_port() { awk '$3 ~ /^[0-9]+$/ && $3 != "004" { print; taken = 1 } END { exit !taken }' "$VHCI/status"; }

has_none() { ! has_port; }

# usbip can't read the ports while one of them has a device that the kernel has given up.
detach_lost() {
    detach "$1" && echo "by usbip" && return
    has_port | awk '{ print $2 + 0 }' > "$VHCI/detach" && await has_none && echo "by vhci_hcd's own file, since usbip can't"
}

# The gateway lets a client go that has lost its device, where it was told so; else the client has to detach.
leaves() {
    if [ "$LOSS" = close ]; then
        step "$1: its port is free by itself" await has_none
    else
        sleep 5
        step "$1: its port stays taken" has_port
        step "$1: detaches" detach_lost "$2"
    fi
    step "$1: the device is gone" await is_gone "$2"
}

# The device may not be there yet.
attach_soon() {
    for _ in $(seq 30); do
        attach "$@" && return
        sleep 1
    done
    return 1
}

# A device that is pulled out while a client has it, and plugged in again.
return_session() {
    step "$1: attaches" attach "$2" "$3" || return
    step "$1: transfers" transfers "$4" "$3"
    step "$1: fails once it is pulled out" sees_loss "pull $1" "$4" "$3"
    leaves "$1" "$3"
    say "plug $1"
    step "$1: attaches again" attach_soon "$2" "$3" || return
    step "$1: transfers again" transfers "$4" "$3"
    step "$1: detaches again" detach "$3"
}

# A device whose host is killed while a client has it.
loss_session() {
    step "$1: attaches" attach "$2" "$3" || return
    step "$1: fails once its host is gone" sees_loss "kill the host" "$4" "$3"
    leaves "$1" "$3"
}

# Offers a device whenever it is there. Where it is pulled out usbredirect stays, with no device, and has to begin anew.
offers() {
    while :; do
        usbredirect --device "$1" --as "0.0.0.0:$2" &
        while kill -0 $! && folder_of "$1"; do sleep 1; done
        kill $!
        wait
        sleep 1
    done
}

network() {
    for _ in $(seq 100); do
        [ -d /sys/class/net/eth0 ] && break
        usleep 100000
    done
    ifconfig lo up
    ifconfig eth0 10.0.2.15 netmask 255.255.255.0 up
}

load() { for module in "$@"; do modprobe "$module" || say "FAILED: no module $module"; done; }

. /session
load virtio_pci virtio_net xhci-pci usb-storage sd_mod minix
network
case $ROLE in
    host)
        # usbredirect takes each device from this kernel, and offers it at a port of its own.
        echo "$DEVICES" | while read -r name port id kind; do
            [ -n "$name" ] || continue
            await is_up "$id"
            offers "$id" "$port" > "/run/$name" 2>&1 &
            say "ok $name: is offered at port $port"
        done
        say "ready"
        while :; do sleep 60; done
        ;;
    client)
        load vhci-hcd
        echo "$DEVICES" | while read -r name port id kind; do
            [ -z "$name" ] || client_session "$name" "$port" "$id" "$kind"
        done
        ;;
    stays)
        # attaches, leaves a transfer in flight, and waits to be killed
        load vhci-hcd
        echo "$DEVICES" | while read -r name port id kind; do
            [ -n "$name" ] || continue
            step "$name: attaches" attach "$port" "$id"
            step "$name: transfers" transfers "$kind" "$id"
            # with a transfer that waits, or amid transfers without end
            if [ "$kind" = loop ]; then
                usbfs "$id" unlink 3 0x81 512 > /dev/null 2>&1
                ( usbfs "$id" interrupt 0x81 512 1 ) > /dev/null 2>&1 &
            else
                ( while :; do transfers "$kind" "$id"; done ) > /dev/null 2>&1 &
            fi
        done
        sleep 2
        say "kill me"
        sleep 600
        ;;
    returns | loses)
        load vhci-hcd
        session=return_session
        [ "$ROLE" = returns ] || session=loss_session
        echo "$DEVICES" | while read -r name port id kind; do
            [ -z "$name" ] || $session "$name" "$port" "$id" "$kind"
        done
        ;;
    machine)
        # a virtual machine that has the devices by its own usb-redir
        echo "$DEVICES" | while read -r name port id kind; do
            [ -n "$name" ] || continue
            step "$name: is there" await is_up "$id" && use "$name" "$id" "$kind"
        done
        ;;
esac
say "end"
sync
reboot -f
