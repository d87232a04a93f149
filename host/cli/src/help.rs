//! What each command takes, in words.

pub const GENERAL: &str = "\
bhajnolith: a Shadowsocks 2022 relay whose core is proved

usage: bhajnolith COMMAND [ARGUMENTS]

  serve      the relay box: datagrams and streams of clients to their targets
  connect    the branch box: a local port whose traffic goes to a target through a relay
  sessions   what the session table of a running box says
  compare    tell where two recordings differ
  mend       mend a damaged recording
  plan       cut a long report into datagrams
  settings   show, check or write a settings file
  keygen     make a key

`bhajnolith COMMAND --help` tells more. `bhajnolith --version` tells the version.
Exit status: 0 done, or yes; 1 no; 2 misuse, a refusal or an error.
";

pub const SERVE: &str = "\
usage: bhajnolith serve --listen ADDRESS:PORT --method NAME --key-file FILE [OPTIONS] ...

Relays datagrams and streams of clients to their targets, until it is killed. Every --listen
begins a service on UDP and TCP; the options behind it are its own:

  --listen ADDRESS:PORT   where clients send to
  --method NAME           the method; that of the 2017 edition makes the service one of it
  --key-file FILE         the key in base64; without it the environment's BHAJNOLITH_KEY
  --settings FILE         method, retention, limit and target from a settings file; options
                          stand above it
  --retention SECONDS     how long a silent session is remembered: 60 to 3,600, or 0 for 300
  --limit BYTES           longest datagram that is sent to a client
  --target HOST:PORT      the only target that clients may ask for; without it any
  --state FILE            keeps what was accepted over a restart; without a whole file there,
                          nothing is accepted for the first 61 seconds

For all services:

  --status SOCKET         answers `bhajnolith sessions SOCKET`
  --record FILE           records datagrams in FILE.000001, FILE.000002, ..., each as long as
                          `compare` takes; a longer datagram has a file of its own
  --record-files N        keeps the newest N of these files
  --streams N             so many streams at a time for each service (default 64)
  --idle SECONDS          closes a stream on which nothing moved for so long (default 300)
  --clock-offset SECONDS  adds to the system's clock
";

pub const CONNECT: &str = "\
usage: bhajnolith connect --listen ADDRESS:PORT --server HOST:PORT --target HOST:PORT
                          --method NAME --key-file FILE [OPTIONS]

Sends what comes to a local port, UDP and TCP, to a target through a relay, and brings the
replies back, until it is killed. Every local sender of datagrams has a session of its own.

  --listen ADDRESS:PORT   the local port
  --server HOST:PORT      the relay
  --target HOST:PORT      where the relay is to send to
  --method NAME           the method, of either edition
  --key-file FILE         the key in base64; without it the environment's BHAJNOLITH_KEY
  --settings FILE         method, retention, limit and target from a settings file; options
                          stand above it
  --retention SECONDS     how long a silent session is remembered: 60 to 3,600, or 0 for 300
  --limit BYTES           longest datagram that is sent to the relay
  --streams N             so many streams at a time (default 64)
  --idle SECONDS          closes a stream on which nothing moved for so long (default 300)
  --clock-offset SECONDS  adds to the system's clock
";

pub const SESSIONS: &str = "\
usage: bhajnolith sessions SOCKET [--json] [--watch SECONDS] [--idle ID,..] [--loaded ID,..]

Shows the sessions of a running box: ID, where it sends from, datagrams accepted, repeats
refused, when it was last heard, and how long it is remembered if it stays silent.

  --json            for a script; with --watch a line each time
  --watch SECONDS   shows it again and again
  --idle ID,..      these sessions are shown together, with their sums; an ID has 16
                    hexadecimal digits
  --loaded ID,..    and these; all others are shown below
";

pub const COMPARE: &str = "\
usage: bhajnolith compare FIRST SECOND [--json] [--opened] [--picture OUT.svg]
                          [--method NAME [--key-file FILE]]

Tells where two recordings differ: both counts, then a line for each entry that differs.
Exit status 0: no entry differs; 1: some do; 2: refused.

  --json             for a script
  --opened           compares what the datagrams carry, with clocks counted from each
                     recording's first one, so that two mornings of the same readings are
                     equal; a datagram that is refused, such as a repeat, is compared sealed.
                     Wants a method of the 2022 edition
  --picture OUT.svg  draws both on one time axis that begins with each one's first clock, by
                     direction, differences marked
  --method NAME      opens the datagrams; the picture then tells sessions and refusals apart,
                     and sessions of two IDs are paired by the order in which they come
  --key-file FILE    the key in base64; without it the environment's BHAJNOLITH_KEY
";

pub const MEND: &str = "\
usage: bhajnolith mend FILE [--json]

Mends the contents of a damaged recording and tells each field that it changed. Bodies and
clocks are never written; what needs no mending is not written at all.

  --json   for a script
";

pub const PLAN: &str = "\
usage: bhajnolith plan --method NAME --target HOST:PORT --limit BYTES --length BYTES
                       [--json] [--check FILE]

Cuts a report of so many bytes into as few datagrams as a path limit allows, and prints a line
for each: the payload's length and the padding.

  --method NAME        the method; the 2017 edition has no plans
  --target HOST:PORT   where the datagrams go, which is in each of them
  --limit BYTES        the longest datagram, 65,507 at most
  --length BYTES       the report's length
  --json               for a script
  --check FILE         tells instead whether the plan of the file, as it is printed, is good:
                       exit status 0 or 1
";

pub const SETTINGS: &str = "\
usage: bhajnolith settings show FILE [--json]
       bhajnolith settings check FILE
       bhajnolith settings write FILE --edition N [--method NAME] [--retention SECONDS]
                  [--limit BYTES] [--target HOST:PORT] [--other NUMBER=FILE] ...

Shows or checks a settings file, or writes one, in place of what is there. A check prints
nothing on standard output; exit status 0: good; 1: refused; 2: an error.

  --json                for a script
  --edition N           the file's edition, which is the caller's own: 0 to 65,535
  --method NAME         the method, of either edition of the protocol
  --retention SECONDS   how long a silent session is remembered: 60 to 3,600, or 0 for 300
  --limit BYTES         the longest datagram, 65,507 at most
  --target HOST:PORT    the target
  --other NUMBER=FILE   a setting of number 128 or more for a newer box: the file's bytes
";

pub const KEYGEN: &str = "\
usage: bhajnolith keygen --method NAME [--out FILE]

Makes a random key for a method and prints it in base64.

  --out FILE   writes it to a new file instead, which its owner alone may read
";
