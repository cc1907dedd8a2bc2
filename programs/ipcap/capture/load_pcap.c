/*
 * The functions of libpcap that the programs call, for those that aren't linked with it. When a program starts, they are
 * looked up in libpcap by the names that systems give it. If it isn't there, link layers have no names, and instructions no text.
 */
#include <dlfcn.h>
#include <pcap/pcap.h>
#include <stdbool.h>

#define EACH_CALL(form) form(bpf_image) form(pcap_datalink_val_to_description) form(pcap_datalink_val_to_name) form(pcap_lib_version)

#define POINTER(call) __typeof__(call) *call;
#define FIND(call) *(void **)&loaded.call = dlsym(library, #call); is_loaded = is_loaded && loaded.call;

static struct { EACH_CALL(POINTER) } loaded;

static bool is_loaded;

__attribute__((constructor)) static void load(void)
{
    void *library = dlopen("libpcap.so.0.8", RTLD_NOW); /* of Debian and Ubuntu */
    if (!library) library = dlopen("libpcap.so.1", RTLD_NOW);
    is_loaded = library;
    if (library) { EACH_CALL(FIND) }
}

const char *pcap_lib_version(void)
{
    return is_loaded ? loaded.pcap_lib_version() : NULL;
}

const char *pcap_datalink_val_to_name(int link_type)
{
    return is_loaded ? loaded.pcap_datalink_val_to_name(link_type) : NULL;
}

const char *pcap_datalink_val_to_description(int link_type)
{
    return is_loaded ? loaded.pcap_datalink_val_to_description(link_type) : NULL;
}

char *bpf_image(const struct bpf_insn *instruction, int index)
{
    return is_loaded ? loaded.bpf_image(instruction, index) : NULL;
}
