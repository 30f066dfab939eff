// SPDX-License-Identifier: GPL-2.0
/*
 * Pairs of network devices that take the two offloads of a TSN bridge's port, as a switch's driver does: full `taprio`, and `flower` with a gate.
 * They show in /proc/tsnsim what the kernel gave them, and act on it: gates and strict priority, no frame that would end after its gate closes,
 * the rate and delay of a cable, and stream gates with the class and octets of each interval. Octets are those of whole frames, and a dropped
 * frame doesn't count.
 *
 * `pair A B RATE DELAY RATE DELAY`, written to /proc/tsnsim, makes the devices A and B, with the rate in Mb/s and delay in ns from A to B and
 * then those from B to A. `refuse N` makes them refuse the Nth list or gate from then on, like a switch without room; with 0 they refuse none.
 * `clear` removes all devices.
 */
#include <linux/ethtool.h>
#include <linux/etherdevice.h>
#include <linux/hrtimer.h>
#include <linux/if_vlan.h>
#include <linux/module.h>
#include <linux/netdevice.h>
#include <linux/proc_fs.h>
#include <linux/seq_file.h>
#include <linux/version.h>
#include <net/flow_offload.h>
#include <net/pkt_cls.h>
#include <net/pkt_sched.h>
#include <net/tc_act/tc_gate.h>

/* what was renamed after 6.1 */
#if LINUX_VERSION_CODE >= KERNEL_VERSION(6, 5, 0)
#define IS_LIST_GIVEN(offload) ((offload)->cmd == TAPRIO_CMD_REPLACE)
#define IS_LIST_TAKEN(offload) ((offload)->cmd == TAPRIO_CMD_DESTROY)
#else
#define IS_LIST_GIVEN(offload) ((offload)->enable)
#define IS_LIST_TAKEN(offload) (!(offload)->enable)
#endif
#if LINUX_VERSION_CODE >= KERNEL_VERSION(6, 11, 0)
#define TIMESTAMP_INFO struct kernel_ethtool_ts_info
#else
#define TIMESTAMP_INFO struct ethtool_ts_info
#endif

enum { CLASSES = 8, LONGEST_QUEUE = 5000 };
/* octets on the wire besides those of the frame: before it, and before and after it */
enum { PREAMBLE = 8, PREAMBLE_AND_GAP = 20 };

struct interval {
	bool is_open;
	u32 ns;
	s32 class, octets;
};

struct stream_gate {
	struct list_head others;
	unsigned long cookie;
	u8 address[ETH_ALEN];
	u16 vlan;
	u32 index, count;
	u64 base, cycle;
	struct interval *intervals;
	/* when the interval of the last frame began, and the octets that passed in it */
	u64 began;
	s64 octets;
};

struct port {
	struct list_head others;
	struct net_device *dev;
	struct port *peer;
	spinlock_t lock;
	struct sk_buff_head queues[CLASSES], wire;
	struct hrtimer timer;
	u64 busy_until;
	u32 rate, delay;
	struct tc_taprio_qopt_offload *list;
	struct list_head gates;
};

/* when a frame on the wire has arrived */
struct mark {
	u64 whole;
};

static LIST_HEAD(ports);
static LIST_HEAD(blocks);
static u32 refused;

static struct port *port_of(struct net_device *dev)
{
	return *(struct port **)netdev_priv(dev);
}

static u64 whole_at(struct sk_buff *frame)
{
	return ((struct mark *)frame->cb)->whole;
}

/* returns the octets of a frame with its FCS */
static u32 octets_of(struct sk_buff *frame)
{
	return max(frame->len + ETH_FCS_LEN, (u32)ETH_ZLEN + ETH_FCS_LEN);
}

static u64 time_of(struct port *port, u32 octets)
{
	return (u64)octets * 8000 / port->rate;
}

static bool is_refused(struct netlink_ext_ack *extack)
{
	if (refused == 0 || --refused > 0)
		return false;
	NL_SET_ERR_MSG(extack, "tsnsim: no room");
	return true;
}

/* Transmission gates */

/* returns the entry of a list for an instant, and the time that is left of it */
static size_t entry_at(struct tc_taprio_qopt_offload *list, u64 at, u64 *left)
{
	u64 place = (at - ktime_to_ns(list->base_time)) % list->cycle_time;
	size_t k;

	for (k = 0; k + 1 < list->num_entries && place >= list->entries[k].interval; k++)
		place -= list->entries[k].interval;
	*left = list->entries[k].interval - place;
	return k;
}

/* returns whether the gate of a class is open at an instant, and until when it stays so */
static bool is_open(struct port *port, int class, u64 at, u64 *until)
{
	struct tc_taprio_qopt_offload *list = port->list;
	size_t first, k;
	u64 left;
	bool open;

	*until = U64_MAX;
	if (!list)
		return true;
	if (at < ktime_to_ns(list->base_time)) {
		*until = ktime_to_ns(list->base_time);
		return false;
	}
	first = entry_at(list, at, &left);
	open = list->entries[first].gate_mask >> class & 1;
	for (k = 1; k < list->num_entries; k++) {
		struct tc_taprio_sched_entry *next = &list->entries[(first + k) % list->num_entries];

		if ((next->gate_mask >> class & 1) != open) {
			*until = at + left;
			break;
		}
		left += next->interval;
	}
	return open;
}

/* Stream gates */

static struct stream_gate *gate_of(struct port *port, struct vlan_ethhdr *head)
{
	struct stream_gate *gate;

	list_for_each_entry(gate, &port->gates, others)
		if (gate->vlan == (ntohs(head->h_vlan_TCI) & VLAN_VID_MASK) && ether_addr_equal(gate->address, head->h_dest))
			return gate;
	return NULL;
}

/* returns whether a gate passes this number of octets at an instant, and their class */
static bool passes(struct stream_gate *gate, u32 octets, u64 at, u32 *class)
{
	struct interval *now = gate->intervals;
	u64 place;

	if (at < gate->base)
		return false;
	place = (at - gate->base) % gate->cycle;
	for (; now + 1 < gate->intervals + gate->count && place >= now->ns; now++)
		place -= now->ns;
	if (!now->is_open)
		return false;
	if (gate->began != at - place) {
		gate->began = at - place;
		gate->octets = 0;
	}
	if (now->octets >= 0 && gate->octets + octets > now->octets)
		return false;
	gate->octets += octets;
	if (now->class >= 0)
		*class = now->class;
	return true;
}

/* Frames */

/* a frame has arrived at a port */
static void receive(struct port *port, struct sk_buff *frame)
{
	struct vlan_ethhdr *head = (struct vlan_ethhdr *)frame->data;
	u32 class = 0;

	if (head->h_vlan_proto == htons(ETH_P_8021Q)) {
		struct stream_gate *gate = gate_of(port, head);

		class = ntohs(head->h_vlan_TCI) >> VLAN_PRIO_SHIFT;
		if (gate && !passes(gate, octets_of(frame), whole_at(frame), &class)) {
			dev_kfree_skb_any(frame);
			return;
		}
	}
	nf_reset_ct(frame);
	skb_ext_reset(frame);
	frame->mark = 0;
	frame->tstamp = 0;
	frame->protocol = eth_type_trans(frame, port->dev);
	frame->priority = class;
	skb_set_queue_mapping(frame, 0);
	netif_rx(frame);
}

/* a frame starts on the wire */
static void start(struct port *port, int class, u64 at)
{
	struct sk_buff *frame = __skb_dequeue(&port->queues[class]);
	u32 octets = octets_of(frame);

	port->busy_until = at + time_of(port, octets + PREAMBLE_AND_GAP);
	((struct mark *)frame->cb)->whole = at + time_of(port, octets + PREAMBLE) + port->delay;
	__skb_queue_tail(&port->wire, frame);
}

/* starts the next frame if one may start, and returns when to look again */
static u64 serve(struct port *port, u64 at)
{
	u64 next = U64_MAX, until;
	bool waits = false;
	int class;

	for (class = CLASSES - 1; class >= 0; class--) {
		struct sk_buff *frame = skb_peek(&port->queues[class]);

		if (!frame)
			continue;
		waits = true;
		if (port->busy_until > at)
			break;
		if (is_open(port, class, at, &until) &&
		    (until == U64_MAX || at + time_of(port, octets_of(frame) + PREAMBLE) <= until)) {
			start(port, class, at);
			break;
		}
		next = min(next, until);
	}
	return waits && port->busy_until > at ? min(next, port->busy_until) : next;
}

/* does what is due at a port, and sets the timer for what is due next */
static void attend(struct port *port)
{
	struct sk_buff_head arrived;
	struct sk_buff *frame;
	unsigned long flags;
	u64 at, next;

	__skb_queue_head_init(&arrived);
	spin_lock_irqsave(&port->lock, flags);
	at = ktime_get_clocktai_ns();
	while ((frame = skb_peek(&port->wire)) && whole_at(frame) <= at) {
		__skb_unlink(frame, &port->wire);
		__skb_queue_tail(&arrived, frame);
	}
	next = serve(port, at);
	if ((frame = skb_peek(&port->wire)))
		next = min(next, whole_at(frame));
	if (next != U64_MAX)
		hrtimer_start(&port->timer, ns_to_ktime(max(next, at + 100)), HRTIMER_MODE_ABS);
	spin_unlock_irqrestore(&port->lock, flags);
	while ((frame = __skb_dequeue(&arrived))) {
		spin_lock_irqsave(&port->peer->lock, flags);
		receive(port->peer, frame);
		spin_unlock_irqrestore(&port->peer->lock, flags);
	}
}

static enum hrtimer_restart on_timer(struct hrtimer *timer)
{
	attend(container_of(timer, struct port, timer));
	return HRTIMER_NORESTART;
}

static netdev_tx_t on_transmit(struct sk_buff *frame, struct net_device *dev)
{
	struct port *port = port_of(dev);
	struct sk_buff_head *queue = &port->queues[skb_get_queue_mapping(frame) % CLASSES];
	unsigned long flags;

	skb_orphan(frame);
	if (skb_cow_head(frame, 0) || skb_queue_len(queue) >= LONGEST_QUEUE) {
		dev_kfree_skb_any(frame);
		return NETDEV_TX_OK;
	}
	spin_lock_irqsave(&port->lock, flags);
	__skb_queue_tail(queue, frame);
	spin_unlock_irqrestore(&port->lock, flags);
	attend(port);
	return NETDEV_TX_OK;
}

/* What the kernel gives a driver */

static int take_list(struct port *port, struct tc_taprio_qopt_offload *given)
{
	struct tc_taprio_qopt_offload *old;
	unsigned long flags;

	if (!IS_LIST_GIVEN(given) && !IS_LIST_TAKEN(given))
		return -EOPNOTSUPP;
	if (IS_LIST_GIVEN(given) && is_refused(NULL))
		return -ENOSPC;
	spin_lock_irqsave(&port->lock, flags);
	old = port->list;
	port->list = IS_LIST_GIVEN(given) ? taprio_offload_get(given) : NULL;
	spin_unlock_irqrestore(&port->lock, flags);
	if (old)
		taprio_offload_free(old);
	return 0;
}

static void drop_gate(struct port *port, unsigned long cookie)
{
	struct stream_gate *gate, *next;
	unsigned long flags;

	spin_lock_irqsave(&port->lock, flags);
	list_for_each_entry_safe(gate, next, &port->gates, others)
		if (gate->cookie == cookie) {
			list_del(&gate->others);
			kfree(gate->intervals);
			kfree(gate);
		}
	spin_unlock_irqrestore(&port->lock, flags);
}

/* returns a gate with room for this number of intervals */
static struct stream_gate *new_gate(u32 count)
{
	struct stream_gate *gate = kzalloc(sizeof(*gate), GFP_KERNEL);

	if (!gate)
		return NULL;
	gate->count = count;
	gate->intervals = kcalloc(count, sizeof(*gate->intervals), GFP_KERNEL);
	if (gate->intervals)
		return gate;
	kfree(gate);
	return NULL;
}

static struct stream_gate *gate_given(struct flow_rule *rule)
{
	struct flow_action_entry *action = &rule->action.entries[0];
	struct stream_gate *gate = new_gate(action->gate.num_entries);
	struct flow_match_eth_addrs addresses;
	struct flow_match_vlan vlan;
	u32 k;

	if (!gate)
		return NULL;
	flow_rule_match_eth_addrs(rule, &addresses);
	flow_rule_match_vlan(rule, &vlan);
	ether_addr_copy(gate->address, addresses.key->dst);
	gate->vlan = vlan.key->vlan_id;
	gate->index = action->hw_index;
	gate->base = action->gate.basetime;
	gate->cycle = action->gate.cycletime;
	for (k = 0; k < gate->count; k++) {
		struct action_gate_entry *from = &action->gate.entries[k];

		gate->intervals[k] = (struct interval){ from->gate_state, from->interval, from->ipv, from->maxoctets };
	}
	return gate;
}

static int take_gate(struct port *port, struct flow_cls_offload *given)
{
	struct flow_rule *rule = flow_cls_offload_flow_rule(given);
	struct stream_gate *gate;
	unsigned long flags;

	if (is_refused(given->common.extack))
		return -ENOSPC;
	if (rule->action.num_entries != 1 || rule->action.entries[0].id != FLOW_ACTION_GATE ||
	    !flow_rule_match_key(rule, FLOW_DISSECTOR_KEY_ETH_ADDRS) || !flow_rule_match_key(rule, FLOW_DISSECTOR_KEY_VLAN)) {
		NL_SET_ERR_MSG(given->common.extack, "tsnsim: one gate, for an address and a VLAN, is wanted");
		return -EOPNOTSUPP;
	}
	gate = gate_given(rule);
	if (!gate)
		return -ENOMEM;
	gate->cookie = given->cookie;
	spin_lock_irqsave(&port->lock, flags);
	list_add_tail(&gate->others, &port->gates);
	spin_unlock_irqrestore(&port->lock, flags);
	return 0;
}

static int on_block(enum tc_setup_type type, void *data, void *port)
{
	struct flow_cls_offload *given = data;

	if (type != TC_SETUP_CLSFLOWER)
		return -EOPNOTSUPP;
	switch (given->command) {
	case FLOW_CLS_REPLACE:
		return take_gate(port, given);
	case FLOW_CLS_DESTROY:
		drop_gate(port, given->cookie);
		return 0;
	case FLOW_CLS_STATS:
		return 0;
	default:
		return -EOPNOTSUPP;
	}
}

static int on_setup(struct net_device *dev, enum tc_setup_type type, void *data)
{
	struct port *port = port_of(dev);

	switch (type) {
	case TC_SETUP_QDISC_TAPRIO:
		return take_list(port, data);
	case TC_SETUP_BLOCK:
		return flow_block_cb_setup_simple(data, &blocks, on_block, port, port, true);
	default:
		return -EOPNOTSUPP;
	}
}

/* Devices */

static int link_settings(struct net_device *dev, struct ethtool_link_ksettings *settings)
{
	memset(&settings->base, 0, sizeof(settings->base));
	settings->base.speed = port_of(dev)->rate;
	settings->base.duplex = DUPLEX_FULL;
	return 0;
}

/* `taprio` wants a device with a PTP clock */
static int timestamps(struct net_device *dev, TIMESTAMP_INFO *info)
{
	ethtool_op_get_ts_info(dev, info);
	info->phc_index = 0;
	return 0;
}

static const struct net_device_ops operations = {
	.ndo_start_xmit = on_transmit,
	.ndo_setup_tc = on_setup,
	.ndo_set_mac_address = eth_mac_addr,
	.ndo_validate_addr = eth_validate_addr,
};

static const struct ethtool_ops ethtool_operations = {
	.get_link_ksettings = link_settings,
	.get_ts_info = timestamps,
	.get_link = ethtool_op_get_link,
};

static void set_up(struct net_device *dev)
{
	ether_setup(dev);
	dev->netdev_ops = &operations;
	dev->ethtool_ops = &ethtool_operations;
	dev->features |= NETIF_F_HW_TC;
	dev->hw_features |= NETIF_F_HW_TC;
	dev->tx_queue_len = LONGEST_QUEUE;
	dev->max_mtu = 2000;
	dev->priv_flags &= ~IFF_TX_SKB_SHARING;
	eth_hw_addr_random(dev);
}

static void set_timer(struct port *port)
{
#if LINUX_VERSION_CODE >= KERNEL_VERSION(6, 15, 0)
	hrtimer_setup(&port->timer, on_timer, CLOCK_TAI, HRTIMER_MODE_ABS);
#else
	hrtimer_init(&port->timer, CLOCK_TAI, HRTIMER_MODE_ABS);
	port->timer.function = on_timer;
#endif
}

static struct port *new_port(const char *name, u32 rate, u32 delay)
{
	struct port *port = kzalloc(sizeof(*port), GFP_KERNEL);
	int class;

	if (!port)
		return NULL;
	port->dev = alloc_netdev_mqs(sizeof(port), name, NET_NAME_USER, set_up, CLASSES, 1);
	if (!port->dev) {
		kfree(port);
		return NULL;
	}
	*(struct port **)netdev_priv(port->dev) = port;
	spin_lock_init(&port->lock);
	for (class = 0; class < CLASSES; class++)
		__skb_queue_head_init(&port->queues[class]);
	__skb_queue_head_init(&port->wire);
	INIT_LIST_HEAD(&port->gates);
	set_timer(port);
	port->rate = rate;
	port->delay = delay;
	return port;
}

/* On a fault nothing is freed: the machine ends soon. */
static int make_pair(const char *words)
{
	char names[2][IFNAMSIZ];
	u32 rates[2], delays[2];
	struct port *pair[2];
	int k, fault;

	if (sscanf(words, "pair %15s %15s %u %u %u %u", names[0], names[1], &rates[0], &delays[0], &rates[1], &delays[1]) != 6)
		return -EINVAL;
	for (k = 0; k < 2; k++)
		if (!rates[k] || !(pair[k] = new_port(names[k], rates[k], delays[k])))
			return -EINVAL;
	for (k = 0; k < 2; k++) {
		pair[k]->peer = pair[1 - k];
		fault = register_netdev(pair[k]->dev);
		if (fault)
			return fault;
		list_add_tail(&pair[k]->others, &ports);
	}
	return 0;
}

static void clear(void)
{
	struct port *port, *next;
	int class;

	list_for_each_entry(port, &ports, others)
		unregister_netdev(port->dev);
	list_for_each_entry(port, &ports, others)
		hrtimer_cancel(&port->timer);
	list_for_each_entry_safe(port, next, &ports, others) {
		for (class = 0; class < CLASSES; class++)
			skb_queue_purge(&port->queues[class]);
		skb_queue_purge(&port->wire);
		list_del(&port->others);
		free_netdev(port->dev);
		kfree(port);
	}
}

/* /proc/tsnsim */

static ssize_t on_write(struct file *file, const char __user *from, size_t length, loff_t *at)
{
	char words[100];
	int fault = 0;

	if (length >= sizeof(words) || copy_from_user(words, from, length))
		return -EINVAL;
	words[length] = 0;
	if (strcmp(words, "clear\n") == 0)
		clear();
	else if (sscanf(words, "refuse %u", &refused) != 1)
		fault = make_pair(words);
	return fault ? fault : length;
}

static void show_list(struct seq_file *to, struct port *port)
{
	size_t k;

	seq_printf(to, "list %s %lld %llu", port->dev->name, ktime_to_ns(port->list->base_time), port->list->cycle_time);
	for (k = 0; k < port->list->num_entries; k++)
		seq_printf(to, " %u:%02X:%u", port->list->entries[k].command, port->list->entries[k].gate_mask, port->list->entries[k].interval);
	seq_putc(to, '\n');
}

static void show_gate(struct seq_file *to, struct port *port, struct stream_gate *gate)
{
	u32 k;

	seq_printf(to, "gate %s %u %pM %u %llu %llu", port->dev->name, gate->index, gate->address, gate->vlan, gate->base, gate->cycle);
	for (k = 0; k < gate->count; k++) {
		struct interval *it = &gate->intervals[k];

		seq_printf(to, " %s:%u:%d:%d", it->is_open ? "open" : "close", it->ns, it->class, it->octets);
	}
	seq_putc(to, '\n');
}

static int show(struct seq_file *to, void *unused)
{
	struct stream_gate *gate;
	struct port *port;

	list_for_each_entry(port, &ports, others) {
		if (port->list)
			show_list(to, port);
		list_for_each_entry(gate, &port->gates, others)
			show_gate(to, port, gate);
	}
	return 0;
}

static int on_open(struct inode *inode, struct file *file)
{
	return single_open_size(file, show, NULL, 1 << 18);
}

static const struct proc_ops file_operations = {
	.proc_open = on_open,
	.proc_read = seq_read,
	.proc_lseek = seq_lseek,
	.proc_release = single_release,
	.proc_write = on_write,
};

static int __init begin(void)
{
	return proc_create("tsnsim", 0600, NULL, &file_operations) ? 0 : -ENOMEM;
}

module_init(begin);
MODULE_LICENSE("GPL");
MODULE_DESCRIPTION("Ports of TSN bridges, in pairs, for tests");
