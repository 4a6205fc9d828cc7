"""What is shown of a fault: its line and column with a caret, and a hint what was meant. Used by check_rules."""
import difflib, re, unicodedata

import rule_faults, rule_sets
from rule_sets import MARK, cut_word

COLUMNS = 100  # of an excerpt
PAGE = "docs/manual/suricata.md"
PROTOCOLS = ("tcp", "udp", "icmp", "ip")
SURICATA_PROTOCOLS = frozenset(
    "http http1 http2 tls ssl dns mdns ssh smtp ftp ftp-data smb smb2 dcerpc dhcp dnp3 modbus enip nfs tftp snmp sip rdp rfb "
    "mqtt quic krb5 ike ikev2 ntp pgsql telnet imap pop3 ldap websocket bittorrent-dht doh2 tcp-pkt tcp-stream pkthdr icmpv4 "
    "icmpv6 ip4 ip6 ipv4 ipv6 sctp ether arp".split())
SURICATA_ACTIONS = frozenset("rejectsrc rejectdst rejectboth accept".split())
SURICATA_OPTIONS = frozenset(
    "startswith endswith bsize dotprefix xbits hostbits flowint app-layer-protocol app-layer-event decode-event stream-event "
    "engine-event dataset datarep iprep geoip lua luaxform target noalert prefilter bypass requires filestore filemd5 filesha1 "
    "filesha256 filename fileext filemagic filesize tls_cert_expired tls_cert_valid tls_cert_notbefore tls_cert_notafter "
    "tls_cert_subject tls_cert_issuer tls_cert_serial tls_cert_fingerprint tls_sni ja3_hash ja3_string dns_query ssh_proto "
    "ssh_software strip_whitespace compress_whitespace to_md5 to_sha1 to_sha256 to_lowercase "
    "to_uppercase url_decode xor pcrexform nfq_set_mark l3_proto "
    "krb5_cname krb5_sname krb5_err_code krb5_msg_type smb_named_pipe smb_share ftpdata_command enip_command".split())
INSTEAD = {"threshold": "--migrate writes an event_filter", "drop": "--migrate writes alert", "reject": "--migrate writes alert"}

def place_in(file, line, at):
    """The number of the line, and the column from 1 on, of a place in a joined line."""
    begin, number, before = [it for it in line.parts if it[0] <= at][-1]
    column = at - begin + before
    return number, min(column, len(file.lines[number - 1]))

def shown(text):
    """A text of which each sign has a column: what is none is a question mark."""
    return "".join(" " if it == "\t" else "?" if unicodedata.category(it)[0] in "CZM" and it != " " else it for it in text)

def excerpt(file, line, begin):
    """The line in which a fault is, or what there is around it, and a caret."""
    number, column = place_in(file, line, begin)
    text = shown(file.lines[number - 1])
    first = max(min(column - COLUMNS // 2, len(text) - COLUMNS), 0)
    cut = text[first:first + COLUMNS]
    front = f"    {number}:{column + 1}  " + ".." * (first > 0)
    return [front + cut + ".." * (first + COLUMNS < len(text)), " " * (len(front) + column - first) + "^"]

def similar(word, words):
    """A word that is nearly this one."""
    found = difflib.get_close_matches(word, words, 1, 0.75 if len(word) > 4 else 0.6)
    return f"did you mean {found[0]}?" if found else None

def has_blank_after(file, line):
    """Whether a joined line ends in a backslash with blanks after it."""
    return bool(re.search(r"\\[ \t]+\r?\Z", file.lines[line.number + line.count - 2]))

class Hints:
    def __init__(self, configuration, judge):
        self.configuration, self.judge = configuration, judge
        self.classes = [it.partition(":")[2].partition(",")[0].strip(" \t") for it in judge.classes]
        self.undefined = set()

    def of(self, fault):
        """What may have been meant; None where nothing is known."""
        line, text = fault.line, fault.text
        file, word = self.configuration.files[line.place], line.text[fault.begin:fault.end]
        if has_blank_after(file, line) and (text == "bad option syntax" or not rule_sets.is_rule(line)):
            return "a blank follows the backslash, so the next line isn't joined to this one"
        if line.text.startswith(MARK):
            return "the file begins with a byte order mark: save it without"
        if text == "unknown directive":
            return self.of_directive(line, cut_word(line.text)[0])
        if text == "unknown protocol":
            return f"a protocol of Suricata: see {PAGE}" if word in SURICATA_PROTOCOLS else similar(word, PROTOCOLS)
        if text == "unknown option":
            return self.of_option(rule_faults.name_of(word))
        if text == "unknown class":
            name = word.partition(":")[2].strip(" \t")
            return similar(name, self.classes) or f"a line is lacking: config classification: {name},TEXT,PRIORITY"
        if text.startswith("undefined variable "):
            return self.of_variable(text.split(" ", 2)[2]) if "$" in word else None
        if text == "duplicate sid" and fault.other:
            return f"it is that of {self.configuration.name(fault.other)}({fault.other.number})"
        if text == "bad port list" and "(" in word.replace("$(", ""):
            return "a blank is lacking before the bracket of the options"
        if text == "outside this profile":
            return INSTEAD.get(word if word in INSTEAD else rule_faults.name_of(word))
        return self.of_syntax(line, fault) if text == "bad option syntax" else None

    def of_directive(self, line, word):
        file = self.configuration.files[line.place]
        before = file.lines[line.number - 2] if line.number > 1 else ""
        if re.search(r"\\[ \t]+\Z", before):
            return "a blank follows the backslash of the line before, so this one isn't joined to it"
        if word.startswith(("\x00", "\udcff\udcfe", "\udcfe\udcff")) or "\x00" in word:
            return "the file isn't text of one byte a letter: save it as UTF-8"
        if word == "%YAML":
            return f"Suricata's configuration: see {PAGE}"
        if word in SURICATA_ACTIONS:
            return f"an action of Suricata: see {PAGE}"
        return similar(word, [*rule_sets.ACTIONS[:2], *rule_faults.DIRECTIVES])

    def of_option(self, name):
        if name in SURICATA_OPTIONS or re.fullmatch(r"[a-z0-9_]+\.[a-z0-9_.]+", name):
            return f"an option of Suricata: see {PAGE}"
        return similar(name, rule_faults.NAMES)

    def of_variable(self, name):
        if found := similar(name, [it for it in self.configuration.values if it != name]):
            return found
        if name in self.undefined or not re.fullmatch(r"\w+", name):
            return None
        self.undefined.add(name)  # said once
        return f"define it: {'portvar' if 'PORT' in name else 'ipvar'} {name} any"

    def of_syntax(self, line, fault):
        if fault.begin == len(line.text) - 1 and not rule_faults.is_closed(line.text):
            return "the last sign of a rule is a closing bracket"
        if not line.text[fault.begin:fault.end]:
            return "an option without a name, as in ;;"
        return "an option ends with a semicolon"

def lines_of(hints, fault):
    """What is shown of a fault below its first line."""
    file = hints.configuration.files[fault.line.place]
    out = excerpt(file, fault.line, fault.begin)
    hint = hints.of(fault)
    return out + [f"    {hint}"] * bool(hint)
