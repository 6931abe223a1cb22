# SPDX-License-Identifier: MIT OR Apache-2.0
"""Network interfaces, what they are joined to, and the adapters of other networks."""
COUNTERS = """collisions multicast rx_bytes rx_compressed rx_crc_errors rx_dropped rx_errors rx_fifo_errors
rx_frame_errors rx_length_errors rx_missed_errors rx_nohandler rx_over_errors rx_packets tx_aborted_errors tx_bytes
tx_carrier_errors tx_compressed tx_dropped tx_errors tx_fifo_errors tx_heartbeat_errors tx_packets
tx_window_errors""".split()
PORT_COUNTERS = """VL15_dropped excessive_buffer_overrun_errors link_downed link_error_recovery
local_link_integrity_errors multicast_rcv_packets multicast_xmit_packets port_rcv_constraint_errors port_rcv_data
port_rcv_errors port_rcv_packets port_rcv_remote_physical_errors port_rcv_switch_relay_errors
port_xmit_constraint_errors port_xmit_data port_xmit_discards port_xmit_packets port_xmit_wait symbol_error
unicast_rcv_packets unicast_xmit_packets""".split()
FRAME_COUNTERS = """dumped_frames error_frames fcp_input_megabytes fcp_input_requests fcp_output_megabytes
fcp_output_requests fcp_packet_aborts invalid_crc_count invalid_tx_word_count link_failure_count loss_of_signal_count
loss_of_sync_count nos_count rx_frames rx_words seconds_since_last_reset tx_frames tx_words""".split()
LOOPBACK, ETHERNET = 772, 1  # as <linux/if_arp.h> has them


def interface(tree, parent, name, address, speed=1000, up=True, kind=ETHERNET, **words):
    """A network interface. Its speed is in megabits per second, -1 if there is none."""
    number = tree.next("interface", 1)
    at = tree.of_class(parent, "net", name, None, **words, INTERFACE=name, IFINDEX=number)
    none = "00:00:00:00:00:00" if kind == LOOPBACK else "ff:ff:ff:ff:ff:ff"
    tree.put(at, addr_assign_type=0, addr_len=6, address=address, broadcast=none, dev_id="0x0", dev_port=0, dormant=0)
    tree.put(at, carrier_changes=2, carrier_down_count=1, carrier_up_count=1, ifindex=number, iflink=number)
    tree.put(at, duplex="full", link_mode=0, name_assign_type=4, operstate="up" if up else "down")
    tree.put(at, phys_port_id="", phys_port_name="", phys_switch_id="", testing=0, type=kind)
    tree.put(at, speed=speed)
    tree.change(at, carrier=int(up), flags="0x1003" if up else "0x1002", gro_flush_timeout=0, group=0, ifalias="")
    tree.change(at, mtu=65536 if kind == LOOPBACK else 1500, napi_defer_hard_irqs=0, proto_down=0, threaded=0)
    tree.change(at, tx_queue_len=1000)
    tree.put(at + "/statistics", **dict.fromkeys(COUNTERS, 0))
    tree.change(at + "/queues/rx-0", rps_cpus="00", rps_flow_cnt=0)
    tree.change(at + "/queues/tx-0", tx_maxrate=0, xps_cpus="00")
    tree.put(at + "/queues/tx-0", traffic_class="", tx_timeout=0)
    return at


def loopback(tree):
    return interface(tree, None, "lo", "00:00:00:00:00:00", -1, True, LOOPBACK)


def wireless(tree, parent, name, address):
    """A wireless interface with its radio."""
    radio = tree.of_class(parent, "ieee80211", "phy0")
    tree.put(radio, address_mask="00:00:00:00:00:00", addresses=address, index=0, macaddress=address, name="phy0")
    rfkill(tree, radio, "phy0", "wlan")
    at = interface(tree, parent, name, address, -1, DEVTYPE="wlan")
    tree.directory(at + "/wireless")
    tree.link(at + "/phy80211", radio)
    return at


def rfkill(tree, parent, name, kind):
    """The switch of a radio."""
    number = tree.next("rfkill")
    words = {"RFKILL_NAME": name, "RFKILL_TYPE": kind, "RFKILL_STATE": 1}
    at = tree.of_class(parent, "rfkill", f"rfkill{number}", None, **words)
    tree.put(at, hard=0, index=number, name=name, persistent=0, type=kind)
    tree.change(at, soft=0, state=1)


def bond(tree, name, address, *ports):
    """Interfaces that are bonded into one (802.3ad)."""
    at = interface(tree, None, name, address, 100000, True, ETHERNET, DEVTYPE="bond")
    names = [port.rsplit("/", 1)[1] for port in ports]
    tree.change(at + "/bonding", active_slave="", lacp_rate="slow 0", miimon=100, mode="802.3ad 4")
    tree.change(at + "/bonding", slaves=" ".join(names))
    tree.change(at + "/bonding", updelay=0, downdelay=0, use_carrier=1, xmit_hash_policy="layer3+4 1")
    tree.put(at + "/bonding", ad_actor_key=31, ad_aggregator=1, ad_num_ports=len(ports), ad_partner_key=1)
    tree.put(at + "/bonding", ad_partner_mac="00:1c:73:00:00:01", mii_status="up")
    tree.change("/class/net", bonding_masters=name)
    for port, port_name in zip(ports, names):
        tree.put(port + "/bonding_slave", ad_aggregator_id=1, link_failure_count=0, mii_status="up")
        tree.put(port + "/bonding_slave", perm_hwaddr=address, queue_id=0, state="ACTIVE")
        join(tree, at, port, port_name)
    return at


def bridge(tree, name, address, *ports):
    at = interface(tree, None, name, address, 100000, True, ETHERNET, DEVTYPE="bridge")
    number = "8000." + address.replace(":", "")
    tree.put(at + "/bridge", bridge_id=number, hello_timer=0, root_id=number, root_path_cost=0, root_port=0)
    tree.put(at + "/bridge", topology_change=0)
    tree.change(at + "/bridge", ageing_time=30000, forward_delay=1500, hello_time=200, max_age=2000, priority=32768)
    tree.change(at + "/bridge", stp_state=0)
    tree.directory(at + "/brif")
    for port in ports:
        port_name = port.rsplit("/", 1)[1]
        tree.put(port + "/brport", designated_bridge=number, port_id="0x8001", port_no="0x1", state=3)
        tree.change(port + "/brport", hairpin_mode=0, path_cost=2, priority=32)
        tree.link(port + "/brport/bridge", at)
        tree.link(f"{at}/brif/{port_name}", port + "/brport")
        join(tree, at, port, port_name)
    return at


def join(tree, upper, port, name):
    tree.link(port + "/master", upper)
    tree.link(f"{port}/upper_{upper.rsplit('/', 1)[1]}", upper)
    tree.link(f"{upper}/lower_{name}", port)


def infiniband(tree, parent):
    """An InfiniBand adapter with one port."""
    at = tree.of_class(parent, "infiniband", "mlx5_0", None, NAME="mlx5_0")
    tree.put(at, board_id="MT_0000000011", fw_ver="16.35.2000", hca_type="MT4119", hw_rev=0, node_type="1: CA")
    tree.put(at, node_guid="ec0d:9a03:0000:0001", sys_image_guid="ec0d:9a03:0000:0001")
    tree.change(at, node_desc="server mlx5_0")
    port = at + "/ports/1"
    tree.put(port, cap_mask="0x2651e848", lid="0x1", lid_mask_count=0, link_layer="InfiniBand")
    tree.put(port, phys_state="5: LinkUp", rate="100 Gb/sec (4X EDR)", sm_lid="0x1", sm_sl=0, state="4: ACTIVE")
    tree.put(port + "/counters", **dict.fromkeys(PORT_COUNTERS, 0))


def fibre_channel(tree, parent, number):
    """A host of Fibre Channel."""
    host = tree.on_bus(f"{parent}/host{number}", "scsi", None, None, DEVTYPE="scsi_host")
    tree.put(tree.of_class(host, "scsi_host", f"host{number}"), proc_name="qla2xxx", state="running", unique_id=number)
    at = tree.of_class(host, "fc_host", f"host{number}")
    tree.put(at, fabric_name="0x100050eb1a000001", node_name="0x20000024ff000001", port_id="0x010200")
    tree.put(at, port_name="0x21000024ff000001", port_state="Online", port_type="NPort (fabric via point-to-point)")
    tree.put(at, speed="16 Gbit", supported_classes="Class 3", supported_speeds="4 Gbit, 8 Gbit, 16 Gbit")
    tree.put(at, symbolic_name="QLE2690 FW:v9.08.02")
    tree.change(at, dev_loss_tmo=30)
    tree.put(at + "/statistics", **dict.fromkeys(FRAME_COUNTERS, "0x0"))
