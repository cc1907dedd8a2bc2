/* The numbers of link types, which in files differ from libpcap's DLT_ values for some. */
#ifndef IPCAP_LINK_TYPE_H
#define IPCAP_LINK_TYPE_H

/* Returns libpcap's DLT_ value for a link type in a file. */
int link_type_of(unsigned number);

/* Returns the link type in files for one of libpcap's DLT_ values. */
unsigned file_link_type(int link_type);

#endif
