/* The reference record's questions through libspf2, over its in-memory zone; without libspf2's headers there is none. Built with LIBSPF2 defined where the
 * headers are installed. */
#include <stdint.h>

#ifdef LIBSPF2
#include <arpa/inet.h>
#include <arpa/nameser.h>
#include <netdb.h>
#include <netinet/in.h>
#include <string.h>
#include <sys/types.h>

#include <spf2/spf.h>
#include <spf2/spf_dns_zone.h>

static SPF_server_t *libspf2_server;

/* Fills the zone once; answers whether it is there. */
static int libspf2_open(const char *record)
{
    SPF_server_t *s = SPF_server_new(SPF_DNS_ZONE, 0);
    if (!s)
        return 0;
    SPF_dns_server_t *zone = s->resolver;
    SPF_response_t *response = NULL;
    SPF_server_set_rec_dom(s, "mx.relay.example");
    /* a short explanation in the place of its default one, which would cost a quarter of a fail */
    SPF_server_set_explanation(s, "x", &response);
    SPF_response_free(response);
    SPF_dns_zone_add_str(zone, "example.com", ns_t_txt, NETDB_SUCCESS, record);
    SPF_dns_zone_add_str(zone, "example.com", ns_t_a, NETDB_SUCCESS, "198.51.100.1");
    SPF_dns_zone_add_str(zone, "example.com", ns_t_mx, NETDB_SUCCESS, "10 mx.example.com");
    SPF_dns_zone_add_str(zone, "mx.example.com", ns_t_a, NETDB_SUCCESS, "198.51.100.2");
    SPF_dns_zone_add_str(zone, "b.example", ns_t_txt, NETDB_SUCCESS, "v=spf1 ip4:203.0.113.0/24 -all");
    libspf2_server = s;
    return 1;
}

/* One check; answers talavorn.h's number for pass and fail, and 99 for anything else. */
static int libspf2_check(const uint8_t client[4], const char *helo, const char *sender)
{
    struct in_addr address;
    SPF_response_t *response = NULL;
    SPF_request_t *request = SPF_request_new(libspf2_server);
    int number = 99;
    memcpy(&address, client, 4);
    SPF_request_set_ipv4(request, address);
    SPF_request_set_helo_dom(request, helo);
    SPF_request_set_env_from(request, sender);
    SPF_request_query_mailfrom(request, &response);
    if (response && SPF_response_result(response) == SPF_RESULT_PASS)
        number = 2;
    if (response && SPF_response_result(response) == SPF_RESULT_FAIL)
        number = 3;
    SPF_response_free(response);
    SPF_request_free(request);
    return number;
}

#else

static int libspf2_open(const char *record)
{
    (void)record;
    return 0;
}

static int libspf2_check(const uint8_t client[4], const char *helo, const char *sender)
{
    (void)client;
    (void)helo;
    (void)sender;
    return 99;
}

#endif
