/*
 * A VXI-11 server made by rpcgen and libtirpc, with which another server is compared: peer PORT
 *
 * It serves the core channel on 127.0.0.1 with links, the lock and calls that wait for it, the
 * status byte and *IDN?. All other calls return error 8. It prints `ready PORT` when it listens.
 */
#include <arpa/inet.h>
#include <netinet/in.h>
#include <stdio.h>
#include <stdlib.h>
#include <string.h>
#include <sys/socket.h>
#include "vxi11.h"

enum { LINKS = 32, LONGEST = 4096, WAITLOCK = 1, REASON_END = 4, MAV = 16 };
enum { NOT_ACCESSIBLE = 3, INVALID_LINK = 4, PARAMETER = 5, NOT_SUPPORTED = 8, NO_RESOURCES = 9,
       LOCKED = 11, NO_LOCK = 12, IO_TIMEOUT = 15 };

static const char name[] = "SCANVOLT,SV32,0,1.0\n";

/* For each link, counted from 1: whether it exists, and whether its response is available. */
static bool_t lives[LINKS + 1], stands[LINKS + 1];
static Device_Link holder;

/* The device_locks that wait, the oldest first. */
static struct { Device_Link link; SVCXPRT *transport; } waiting[LINKS];
static int waiters;

void device_core_1(struct svc_req *, SVCXPRT *);

static bool_t is_live(Device_Link link)
{
    return link >= 1 && link <= LINKS && lives[link];
}

/* The error that refuses a call that needs the lock, or 0. */
static Device_ErrorCode refusal(Device_Link link)
{
    if (!is_live(link))
        return INVALID_LINK;
    return holder != 0 && holder != link ? LOCKED : 0;
}

/* Frees the lock, and gives it to the call that has waited longest. */
static void pass_on(void)
{
    static Device_Error done;
    holder = 0;
    if (waiters == 0)
        return;
    SVCXPRT *transport = waiting[0].transport;
    holder = waiting[0].link;
    memmove(waiting, waiting + 1, --waiters * sizeof *waiting);
    svc_sendreply(transport, (xdrproc_t)xdr_Device_Error, (caddr_t)&done);
}

Create_LinkResp *create_link_1_svc(Create_LinkParms *parms, struct svc_req *request)
{
    static Create_LinkResp answer;
    (void)request;
    memset(&answer, 0, sizeof answer);
    answer.error = NOT_ACCESSIBLE;
    if (strcmp(parms->device, "inst0") != 0)
        return &answer;
    answer.error = NO_RESOURCES;
    for (Device_Link link = 1; link <= LINKS && answer.error != 0; link++)
        if (!lives[link]) {
            lives[link] = TRUE;
            stands[link] = FALSE;
            answer.error = 0;
            answer.lid = link;
            answer.maxRecvSize = LONGEST;
        }
    return &answer;
}

Device_WriteResp *device_write_1_svc(Device_WriteParms *parms, struct svc_req *request)
{
    static Device_WriteResp answer;
    u_int size = parms->data.data_len;
    (void)request;
    answer.size = 0;
    answer.error = size > LONGEST ? PARAMETER : refusal(parms->lid);
    if (answer.error != 0)
        return &answer;
    answer.size = size;
    while (size > 0 && parms->data.data_val[size - 1] <= ' ')
        size--;
    stands[parms->lid] = size == 5 && memcmp(parms->data.data_val, "*IDN?", 5) == 0;
    return &answer;
}

Device_ReadResp *device_read_1_svc(Device_ReadParms *parms, struct svc_req *request)
{
    static Device_ReadResp answer;
    (void)request;
    memset(&answer, 0, sizeof answer);
    answer.error = refusal(parms->lid);
    if (answer.error == 0 && (!stands[parms->lid] || parms->requestSize < sizeof name - 1))
        answer.error = IO_TIMEOUT;
    if (answer.error != 0)
        return &answer;
    stands[parms->lid] = FALSE;
    answer.reason = REASON_END;
    answer.data.data_val = (char *)name;
    answer.data.data_len = sizeof name - 1;
    return &answer;
}

Device_ReadStbResp *device_readstb_1_svc(Device_GenericParms *parms, struct svc_req *request)
{
    static Device_ReadStbResp answer;
    (void)request;
    answer.error = refusal(parms->lid);
    answer.stb = answer.error == 0 && stands[parms->lid] ? MAV : 0;
    return &answer;
}

/* Returns no answer if the call has to wait: `pass_on` sends it later. */
Device_Error *device_lock_1_svc(Device_LockParms *parms, struct svc_req *request)
{
    static Device_Error answer;
    answer.error = refusal(parms->lid);
    if (answer.error == LOCKED && (parms->flags & WAITLOCK) && waiters < LINKS) {
        waiting[waiters].link = parms->lid;
        waiting[waiters++].transport = request->rq_xprt;
        return NULL;
    }
    if (answer.error == 0)
        holder = parms->lid;
    return &answer;
}

Device_Error *device_unlock_1_svc(Device_Link *link, struct svc_req *request)
{
    static Device_Error answer;
    (void)request;
    answer.error = !is_live(*link) ? INVALID_LINK : holder != *link ? NO_LOCK : 0;
    if (answer.error == 0)
        pass_on();
    return &answer;
}

Device_Error *destroy_link_1_svc(Device_Link *link, struct svc_req *request)
{
    static Device_Error answer;
    (void)request;
    answer.error = is_live(*link) ? 0 : INVALID_LINK;
    if (answer.error == 0) {
        lives[*link] = FALSE;
        if (holder == *link)
            pass_on();
    }
    return &answer;
}

#define UNSUPPORTED(call, Parms, Answer)                            \
    Answer *call##_1_svc(Parms *parms, struct svc_req *request)     \
    {                                                               \
        static Answer answer = { .error = NOT_SUPPORTED };          \
        (void)parms, (void)request;                                 \
        return &answer;                                             \
    }

UNSUPPORTED(device_trigger, Device_GenericParms, Device_Error)
UNSUPPORTED(device_clear, Device_GenericParms, Device_Error)
UNSUPPORTED(device_remote, Device_GenericParms, Device_Error)
UNSUPPORTED(device_local, Device_GenericParms, Device_Error)
UNSUPPORTED(device_enable_srq, Device_EnableSrqParms, Device_Error)
UNSUPPORTED(device_docmd, Device_DocmdParms, Device_DocmdResp)
UNSUPPORTED(create_intr_chan, Device_RemoteFunc, Device_Error)
UNSUPPORTED(destroy_intr_chan, void, Device_Error)
UNSUPPORTED(device_abort, Device_Link, Device_Error)

void *device_intr_srq_1_svc(Device_SrqParms *parms, struct svc_req *request)
{
    (void)parms, (void)request;
    return NULL;
}

int main(int count, char **words)
{
    int port = count == 2 ? atoi(words[1]) : 0, on = 1;
    struct sockaddr_in address = { .sin_family = AF_INET, .sin_port = htons(port) };
    address.sin_addr.s_addr = htonl(INADDR_LOOPBACK);
    int listener = socket(AF_INET, SOCK_STREAM, 0);
    setsockopt(listener, SOL_SOCKET, SO_REUSEADDR, &on, sizeof on);
    if (port == 0 || bind(listener, (struct sockaddr *)&address, sizeof address) != 0 ||
        listen(listener, LINKS) != 0) {
        perror("peer");
        return 2;
    }
    /* Protocol 0: it isn't registered with a port mapper. */
    SVCXPRT *transport = svctcp_create(listener, 0, 0);
    if (transport == NULL ||
        !svc_register(transport, DEVICE_CORE, DEVICE_CORE_VERSION, device_core_1, 0)) {
        fprintf(stderr, "peer: no server\n");
        return 2;
    }
    printf("ready %d\n", port);
    fflush(stdout);
    svc_run();
    return 1;
}
