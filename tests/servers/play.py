"""Tries a server over real sockets, one thing after another; see tests/serve."""

from tests.servers.connections import peers_that_go_away, port_that_is_taken
from tests.servers.copies import copies_while_it_runs
from tests.servers.histories import sixteen_clients
from tests.servers.leases import leases_by_the_clock
from tests.servers.paths import byte_by_byte, curl_each_path

curl_each_path()
byte_by_byte()
peers_that_go_away()
port_that_is_taken()
leases_by_the_clock()
copies_while_it_runs()
sixteen_clients()
