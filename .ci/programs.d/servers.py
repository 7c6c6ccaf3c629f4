"""Servers for Statsd that Debian has, run at a port of 127.0.0.1. They write only to a folder that is given."""
import contextlib, csv, getpass, glob, http.client, json, os, re, shutil, signal, struct, subprocess, tempfile, time

from watch import free_port

PERIOD = 12  # seconds after which a server looks at what it got
LONGEST = 60  # seconds until a server has started, and until it knows the last line

COLLECTD = '''Hostname h
FQDNLookup false
Interval {period}
BaseDir "{room}"
PIDFile "{room}/pid"
LoadPlugin csv
<Plugin csv>
  DataDir "{room}"
  StoreRates false
</Plugin>
LoadPlugin statsd
<Plugin statsd>
  Host 127.0.0.1
  Port {port}
  TimerSum true
  TimerCount true
</Plugin>
'''
NETDATA = '''[global]
  run as user = {user}
[db]
  mode = ram
[directories]
  config = {room}
  cache = {room}
  lib = {room}
  log = {room}
[web]
  bind to = 127.0.0.1:{web}
[plugins]
  enable running new plugins = no
  proc = no
  cgroups = no
  diskspace = no
[statsd]
  update every (flushInterval) = {period}
  default port = {port}
  bind to = udp:127.0.0.1
  max private charts hard limit = 1000000
'''
GNOCCHI = '''[indexer]
url = postgresql://gnocchi@/postgres?host={room}
[storage]
file_basepath = {room}
[statsd]
host = 127.0.0.1
port = {port}
resource_id = 5e3fcbe2-7aab-475d-b42c-a440aa42e5ad
creator = admin
archive_policy_name = low
flush_delay = {period}
'''
# A value of a chart of netdata: the name, the dimension and the value.
CHART = re.compile(r'^\w+\{chart="statsd_([^"]*)",family="[^"]*",dimension="([^"]*)"\} (\S+)$', re.M)


def within(seconds, is_so, pause=0.1):
    """Waits until something is so."""
    ends = time.monotonic() + seconds
    while not is_so():
        if time.monotonic() > ends:
            raise TimeoutError(f'a server is not ready after {seconds} seconds')
        time.sleep(pause)


def waiting(port):
    """Returns how many bytes of packets wait at a port of 127.0.0.1, or None if nobody receives there."""
    with open('/proc/net/udp') as table:
        rows = [line.split() for line in table]
    return next((int(row[4].split(':')[1], 16) for row in rows if row[1] == f'0100007F:{port:04X}'), None)


def written(path, text, **words):
    with open(path, 'w') as file:
        file.write(text.format(period=PERIOD, **words))
    return path


@contextlib.contextmanager
def started(room, *command, **how):
    """Starts a program, and ends it with all that it started."""
    with open(f'{room}/printed', 'a') as printed:
        run = subprocess.Popen(command, stdout=printed, stderr=printed, cwd=room, start_new_session=True, **how)
    try:
        yield
    finally:
        run.send_signal(signal.SIGINT)
        with contextlib.suppress(subprocess.TimeoutExpired):
            run.wait(10)
        with contextlib.suppress(ProcessLookupError):
            os.killpg(run.pid, signal.SIGKILL)
        run.wait()


@contextlib.contextmanager
def collectd(room, port):
    """Runs collectd, and yields what returns the rows that it has stored."""
    def stored():
        rows = {}
        for path in glob.glob(f'{room}/h/statsd/*'):
            with open(path) as file:
                rows[re.sub(r'-\d{4}-\d\d-\d\d$', '', os.path.basename(path))] = [value for _, value in csv.reader(file)][1:]
        return rows
    with started(room, 'collectd', '-f', '-C', written(f'{room}/conf', COLLECTD, room=room, port=port)):
        yield stored


@contextlib.contextmanager
def netdata(room, port):
    """Runs netdata, and yields what returns the values that it has collected. It tells them for a second or two after it has looked
    at what it got, so what it told before is kept."""
    web, values = free_port(), {}
    def collected():
        talk = http.client.HTTPConnection('127.0.0.1', web, timeout=LONGEST)
        talk.request('GET', '/api/v1/allmetrics?format=prometheus&source=as-collected&timestamps=no')
        for chart, dimension, value in CHART.findall(talk.getresponse().read().decode()):
            values[f'{chart} {dimension}'] = value
        return values
    conf = written(f'{room}/netdata.conf', NETDATA, room=room, port=port, web=web, user=getpass.getuser())
    with started(room, 'netdata', '-D', '-c', conf):
        yield collected


@contextlib.contextmanager
def gnocchi(room, port):
    """Runs gnocchi-statsd over a database of its own, and yields what returns the measures that it has stored: of a counter their
    sum, and of others the last one. A sum of floats has fewer right digits than a float."""
    def stored():
        paths, measures = sorted(glob.glob(f'{room}/incoming*/*/*'), key=os.path.getmtime), {}
        query = ['psql', '-h', room, '-U', 'gnocchi', '-Atc', "SELECT COALESCE(json_object_agg(id, name), '{}') FROM metric", 'postgres']
        names = json.loads(subprocess.run(query, stdout=subprocess.PIPE, check=True).stdout)
        for path in paths:
            with open(path, 'rb') as file:
                values = [value for _, value in struct.iter_unpack('<qd', file.read())]
            name = names[path.split('/')[-2]]
            measures[name] = sum(values, measures.get(name, 0)) if name.endswith('|c') else values[-1]
        return {name: f'{value:.12g}' for name, value in measures.items()}
    owner = {'user': 'nobody'} if os.getuid() == 0 else {}  # PostgreSQL doesn't run as root
    with tempfile.TemporaryDirectory() as data:
        for place in (room, data) if owner else ():
            shutil.chown(place, 'nobody')
        conf = written(f'{room}/conf', GNOCCHI, room=room, port=port)
        subprocess.run(['initdb', '-D', data, '-A', 'trust', '-U', 'gnocchi'], stdout=subprocess.DEVNULL, check=True, **owner)
        with started(room, 'postgres', '-D', data, '-k', room, '-c', 'listen_addresses=', **owner):
            within(LONGEST, lambda: glob.glob(f'{room}/.s.PGSQL*'))
            subprocess.run(['gnocchi-upgrade', '--config-file', conf], stderr=subprocess.DEVNULL, check=True)
            with started(room, 'gnocchi-statsd', '--config-file', conf):
                yield stored
