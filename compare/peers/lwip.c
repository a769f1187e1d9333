/* lwIP as an end of a connection: `lwip listen`, or `lwip open`.
 *
 * Each message of descriptor 0 is an IP packet. Of descriptor 1, a stream of bytes in both directions, what is read is
 * sent, and what comes is written. The library is Debian's, and runs in this one thread: its own is never started. */
#include <fcntl.h>
#include <lwip/init.h>
#include <lwip/ip.h>
#include <lwip/tcp.h>
#include <lwip/timeouts.h>
#include <poll.h>
#include <string.h>
#include <sys/socket.h>
#include <unistd.h>

static struct tcp_pcb *connection;
/* What came, and isn't written yet. */
static struct pbuf *come;
static int is_open, has_end, is_written, is_closed;

static err_t output(struct netif *netif, struct pbuf *packet, const ip4_addr_t *to)
{
    unsigned char bytes[2048];
    (void)netif, (void)to;
    send(0, bytes, pbuf_copy_partial(packet, bytes, sizeof bytes, 0), MSG_NOSIGNAL);
    return ERR_OK;
}

static err_t begin(struct netif *netif)
{
    netif->output = output;
    netif->mtu = 1500;
    return ERR_OK;
}

static err_t take(void *argument, struct tcp_pcb *pcb, struct pbuf *bytes, err_t error)
{
    (void)argument, (void)pcb, (void)error;
    if (!bytes)
        has_end = 1;
    else if (come)
        pbuf_cat(come, bytes); /* at most a window: 65,535 bytes */
    else
        come = bytes;
    return ERR_OK;
}

static void fail(void *argument, err_t error)
{
    (void)argument;
    connection = NULL;
    if (error != ERR_CLSD)
        _exit(4);
}

static err_t opened(void *argument, struct tcp_pcb *pcb, err_t error)
{
    (void)argument, (void)error;
    connection = pcb;
    is_open = 1;
    tcp_recv(pcb, take);
    tcp_err(pcb, fail);
    return ERR_OK;
}

static void write_out(void)
{
    ssize_t count;
    while (come && (count = write(1, come->payload, come->len)) > 0) {
        if (connection)
            tcp_recved(connection, count);
        come = pbuf_free_header(come, count);
    }
    if (has_end && !come && !is_written)
        is_written = !shutdown(1, SHUT_WR);
}

static int has_room(void)
{
    return is_open && connection && !is_closed && tcp_sndbuf(connection) >= TCP_MSS &&
           tcp_sndqueuelen(connection) + 4 < TCP_SND_QUEUELEN;
}

static void read_in(void)
{
    unsigned char bytes[TCP_MSS];
    ssize_t count;
    while (has_room() && (count = read(1, bytes, sizeof bytes)) >= 0) {
        if (count == 0)
            is_closed = tcp_shutdown(connection, 0, 1) == ERR_OK;
        else if (tcp_write(connection, bytes, count, TCP_WRITE_FLAG_COPY))
            _exit(5);
        if (count == 0)
            break;
    }
    if (is_open && connection)
        tcp_output(connection);
}

int main(int count, char **words)
{
    int listens = count == 2 && !strcmp(words[1], "listen"), room = 4096;
    struct netif netif;
    ip4_addr_t here, there, mask;
    ip_addr_t peer;
    struct tcp_pcb *pcb;
    lwip_init();
    IP4_ADDR(&here, 10, 77, 0, listens ? 2 : 1);
    IP4_ADDR(&there, 10, 77, 0, listens ? 1 : 2);
    IP4_ADDR(&mask, 255, 255, 255, 0);
    memset(&netif, 0, sizeof netif);
    netif_add(&netif, &here, &mask, &there, NULL, begin, ip_input);
    netif_set_default(&netif);
    netif_set_link_up(&netif);
    netif_set_up(&netif);
    setsockopt(1, SOL_SOCKET, SO_SNDBUF, &room, sizeof room);
    fcntl(1, F_SETFL, O_NONBLOCK);
    pcb = tcp_new();
    if (listens) {
        if (tcp_bind(pcb, IP_ADDR_ANY, 7000))
            return 6;
        tcp_accept(tcp_listen(pcb), opened);
    } else {
        ip_addr_copy_from_ip4(peer, there);
        tcp_err(pcb, fail);
        if (tcp_connect(pcb, &peer, 7000, opened))
            return 6;
    }
    for (;;) {
        unsigned char packet[2048];
        ssize_t length;
        struct pollfd waits[2] = {{0, POLLIN, 0}, {1, 0, 0}};
        while ((length = recv(0, packet, sizeof packet, MSG_DONTWAIT)) > 0) {
            /* From the heap: buffers of the library's pool are smaller than it says. */
            struct pbuf *taken = pbuf_alloc(PBUF_RAW, length, PBUF_RAM);
            if (!taken)
                continue;
            pbuf_take(taken, packet, length);
            if (netif.input(taken, &netif))
                pbuf_free(taken);
        }
        if (length == 0)
            return 0;
        sys_check_timeouts();
        write_out();
        read_in();
        waits[1].events = (come ? POLLOUT : 0) | (has_room() ? POLLIN : 0);
        if (!waits[1].events)
            waits[1].fd = -1;
        poll(waits, 2, LWIP_MIN(sys_timeouts_sleeptime(), 50));
    }
}
