"""epics: the variables of EPICS Base, for tests of programs that read none of them."""

NOBODY = "192.0.2.1"

# They name places where nobody is: what clients search, where servers are and send beacons, and the repeater.
ELSEWHERE = {
    "EPICS_CA_ADDR_LIST": NOBODY,
    "EPICS_CA_AUTO_ADDR_LIST": "NO",
    "EPICS_CA_NAME_SERVERS": NOBODY,
    "EPICS_CA_SERVER_PORT": "5001",
    "EPICS_CA_REPEATER_PORT": "5002",
    "EPICS_CAS_INTF_ADDR_LIST": NOBODY,
    "EPICS_CAS_SERVER_PORT": "5001",
    "EPICS_CAS_BEACON_ADDR_LIST": NOBODY,
    "EPICS_CAS_AUTO_BEACON_ADDR_LIST": "NO",
    "EPICS_CAS_BEACON_PORT": "5002",
}
