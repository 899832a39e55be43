/*
 * A scan that an external trigger starts, and a service request when it is done, in C with rpcgen:
 *
 *     service_request [PORT]      the core port of an instrument at 127.0.0.1; 4096 if not said
 *
 * The program is a client of the core channel and the server of its interrupt channel: the
 * instrument connects to a port of this program and calls device_intr_srq there.
 */
#include <arpa/inet.h>
#include <netinet/in.h>
#include <stdio.h>
#include <stdlib.h>
#include <string.h>
#include <sys/select.h>
#include <sys/socket.h>
#include "vxi11.h"

enum { FLAG_END = 8, REASON_END = 4, MILLISECONDS = 5000, SECONDS = 30 };

static CLIENT *core;
static Device_Link meter;
static int requests;

static void fail(const char *what)
{
    fprintf(stderr, "service_request: %s\n", what);
    exit(1);
}

/* The result of a call. Exits if there is none, or if its first field, the error, isn't 0. */
static void *done(const char *call, void *result)
{
    if (result == NULL) {
        clnt_perror(core, call);
        exit(1);
    }
    if (*(Device_ErrorCode *)result != 0) {
        fprintf(stderr, "service_request: %s: error %d\n", call, *(Device_ErrorCode *)result);
        exit(1);
    }
    return result;
}

static void tell(const char *text)
{
    Device_WriteParms parms = { .lid = meter, .io_timeout = MILLISECONDS, .flags = FLAG_END };
    parms.data.data_val = (char *)text;
    parms.data.data_len = strlen(text);
    done("device_write", device_write_1(&parms, core));
}

/* Writes a query and prints its answer, which is read to its end and has a new line there. */
static void ask(const char *query)
{
    Device_ReadParms parms = { .lid = meter, .requestSize = 1024, .io_timeout = MILLISECONDS };
    int reason;
    tell(query);
    printf("%s ", query);
    do {
        Device_ReadResp *answer = done("device_read", device_read_1(&parms, core));
        printf("%.*s", (int)answer->data.data_len, answer->data.data_val);
        reason = answer->reason;
        clnt_freeres(core, (xdrproc_t)xdr_Device_ReadResp, (caddr_t)answer);
    } while (!(reason & REASON_END));
}

static int poll_status(void)
{
    Device_GenericParms parms = { .lid = meter, .io_timeout = MILLISECONDS };
    Device_ReadStbResp *answer = done("device_readstb", device_readstb_1(&parms, core));
    return answer->stb;
}

static struct sockaddr_in here(int port)
{
    struct sockaddr_in address = { .sin_family = AF_INET, .sin_port = htons(port) };
    address.sin_addr.s_addr = htonl(INADDR_LOOPBACK);
    return address;
}

/* A call on the interrupt channel. It is one-way: it must not be answered. */
static void serve(struct svc_req *request, SVCXPRT *transport)
{
    Device_SrqParms parms = { { 0, NULL } };
    if (request->rq_proc != device_intr_srq) {
        svcerr_noproc(transport);
        return;
    }
    if (!svc_getargs(transport, (xdrproc_t)xdr_Device_SrqParms, (caddr_t)&parms))
        fail("a service request can't be read");
    printf("service request of: %.*s\n", (int)parms.handle.handle_len, parms.handle.handle_val);
    requests++;
    svc_freeargs(transport, (xdrproc_t)xdr_Device_SrqParms, (caddr_t)&parms);
}

/* Listens for the interrupt channel on a free port, without a port mapper. Returns the port. */
static int listen_here(void)
{
    struct sockaddr_in address = here(0);
    socklen_t size = sizeof address;
    int listener = socket(AF_INET, SOCK_STREAM, 0);
    if (listener < 0 || bind(listener, (struct sockaddr *)&address, size) != 0 ||
        listen(listener, 1) != 0 || getsockname(listener, (struct sockaddr *)&address, &size) != 0)
        fail("no port for the interrupt channel");
    SVCXPRT *transport = svctcp_create(listener, 0, 0);
    if (transport == NULL ||
        !svc_register(transport, DEVICE_INTR, DEVICE_INTR_VERSION, serve, 0))
        fail("no server for the interrupt channel");
    return ntohs(address.sin_port);
}

static void wait_for_request(void)
{
    while (requests == 0) {
        fd_set ready = svc_fdset;
        struct timeval limit = { SECONDS, 0 };
        if (select(FD_SETSIZE, &ready, NULL, NULL, &limit) <= 0)
            fail("no service request came");
        svc_getreqset(&ready);
    }
}

/* Opens the interrupt channel, and has service requests sent on it with a handle. */
static void open_channel(void)
{
    Device_RemoteFunc remote = {
        .hostAddr = INADDR_LOOPBACK, .hostPort = listen_here(), .progNum = DEVICE_INTR,
        .progVers = DEVICE_INTR_VERSION, .progFamily = DEVICE_TCP };
    done("create_intr_chan", create_intr_chan_1(&remote, core));
    Device_EnableSrqParms enable = { .lid = meter, .enable = TRUE };
    enable.handle.handle_val = "the scan";
    enable.handle.handle_len = strlen("the scan");
    done("device_enable_srq", device_enable_srq_1(&enable, core));
    printf("the interrupt channel is open\n");
}

int main(int count, char **words)
{
    /* clnt_create would ask the port mapper by UDP. With a port in the address, nothing is asked. */
    struct sockaddr_in address = here(count > 1 ? atoi(words[1]) : 4096);
    int channel = RPC_ANYSOCK;
    core = clnttcp_create(&address, DEVICE_CORE, DEVICE_CORE_VERSION, &channel, 0, 0);
    if (core == NULL) {
        clnt_pcreateerror("service_request");
        return 1;
    }
    Create_LinkParms wanted = { .clientId = 1, .device = "inst0" };
    Create_LinkResp *made = done("create_link", create_link_1(&wanted, core));
    meter = made->lid;

    /* Clear what earlier users left: an unread answer, settings, events, and what they enabled. */
    Device_GenericParms plain = { .lid = meter, .io_timeout = MILLISECONDS };
    done("device_clear", device_clear_1(&plain, core));
    tell("*RST;*CLS;*ESE 0;*SRE 0");

    open_channel();
    ask("*IDN?");

    /* *OPC sets bit 0 of the standard events when the scan is done. That requests service. */
    tell("CONF:VOLT (@1,4,2);:TRIG:SOUR EXT;*ESE 1;*SRE 32");
    printf("status byte before: %d\n", poll_status());
    tell("INIT;*OPC");
    wait_for_request();
    printf("status byte afterwards: %d, and once more: ", poll_status());
    printf("%d\n", poll_status());
    ask("*ESR?");
    ask("FETC?");
    ask("SYST:ERR?");

    done("destroy_intr_chan", destroy_intr_chan_1(NULL, core));
    done("destroy_link", destroy_link_1(&meter, core));
    clnt_destroy(core);
    return 0;
}
