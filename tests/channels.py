#!/usr/bin/env python3
"""channels.py [BOARD [PARCELS [RECORDS_IN]]]: what the board and the program that converts records do where their input comes in pieces
or fails, and what these and the list of the one-parcel instructions do where their output is slow, full, closed or broken. BOARD
is target/bin/board, PARCELS target/bin/parcels, and RECORDS_IN target/bin/records_in if none is named. Answers are those of
document 01 and requests (b) and (j), the list is crates/parcels/stdout; a failure is one line on standard error, after which nothing
is run or written. Prints a line for each case, and ends with status 1 if one is not as it must be.
"""
import fcntl, os, resource, socket, struct, subprocess, sys, tempfile, threading, time

here = os.path.dirname(os.path.abspath(__file__))
named = dict(enumerate(sys.argv))
board = named.get(1, os.path.join(here, '..', 'target', 'bin', 'board'))
parcels = named.get(2, os.path.join(here, '..', 'target', 'bin', 'parcels'))
records = named.get(3, os.path.join(here, '..', 'target', 'bin', 'records_in'))
with open(os.path.join(here, '..', 'crates', 'parcels', 'stdout'), 'rb') as stored:
    LIST = stored.read()
SOON = 20   # seconds; a run of the largest budget takes minutes
BAD = b'no frame\n'
NOTHING = b'030000000007\n'                       # a run of budget 0
NOTHING_DONE = b'830000000000000000000000000000\n'
FOREVER = b'03FFFFFFFF07\n'
RECORD = b'S1040100AB4F\n'
FRAME = b'0200000100AB\n'
failed = []


def told(case, got, wanted):
    print('%-58s %s' % (case, 'as it must be' if got == wanted else 'WRONG: %r, wanted %r' % (got, wanted)))
    if got != wanted:
        failed.append(case)


def nonblocking(fd):
    fcntl.fcntl(fd, fcntl.F_SETFL, fcntl.fcntl(fd, fcntl.F_GETFL) | os.O_NONBLOCK)


def run(stdin, program=board, **more):
    """What is written to standard output (if that is a pipe), to standard error, and the status; all soon."""
    p = subprocess.Popen([program], stdin=subprocess.PIPE, stderr=subprocess.PIPE, **more)
    try:
        out, err = p.communicate(stdin, SOON)
    except subprocess.TimeoutExpired:
        p.kill()
        return 'still running'
    return out, err, p.returncode


def refused(first, last):
    return b''.join(b'8207%08X\n' % n for n in range(first, last + 1))


def totals(runs, refused_lines):
    """The line at the end of input; none of the runs here takes a step."""
    return b'8F%08X%08X%08X\n' % (runs, 0, refused_lines)


def slowly(stdin, program):
    """What comes to a slow reader of an output that does not wait."""
    reader, writer = os.pipe()
    fcntl.fcntl(writer, 1031, 4096)   # F_SETPIPE_SZ
    nonblocking(writer)
    p = subprocess.Popen([program], stdin=subprocess.PIPE, stdout=writer)
    os.close(writer)
    threading.Thread(target=lambda: (p.stdin.write(stdin), p.stdin.close()), daemon=True).start()
    time.sleep(0.3)
    came = b''
    while True:
        piece = os.read(reader, 1500)
        if not piece:
            break
        came += piece
        if len(came) < 30000:
            time.sleep(0.01)
    os.close(reader)
    p.wait()
    return came


# outputs that fail: the board's run after the refused line is not begun, no totals come, and no more of the list is written
LINES = 20000
for name, program, stdin in (('', board, BAD + FOREVER), ('list: ', parcels, b''), ('records: ', records, RECORD)):
    with open('/dev/full', 'wb') as full:
        told(name + 'a full device', run(stdin, program, stdout=full), (None, b'standard output: No space left on device\n', 0))

    told(name + 'a closed output', run(stdin, program, preexec_fn=lambda: os.close(1)),
         (None, b'standard output: Bad file descriptor\n', 0))

    # nobody reads: the failure ends the process; its signal does not, since the kit's programs ignore that
    for ignored in (False, True):
        reader, writer = os.pipe()
        os.close(reader)
        told(name + 'a killed reader, its signal %s' % ('ignored' if ignored else 'not ignored'),
             run(stdin, program, stdout=writer, restore_signals=not ignored), (None, b'standard output: Broken pipe\n', 0))
        os.close(writer)

# an output that fails after some answers: no totals under them
LIMIT = 100000
with tempfile.TemporaryFile() as file:
    said = run(BAD * LINES, stdout=file, restore_signals=False,
               preexec_fn=lambda: resource.setrlimit(resource.RLIMIT_FSIZE, (LIMIT, LIMIT)))
    file.seek(0)
    told('an output that fails after some answers', (file.read(), said),
         (refused(1, LINES)[:LIMIT], (None, b'standard output: File too large\n', 0)))

# the same of records
with tempfile.TemporaryFile() as file:
    said = run(RECORD * LINES, records, stdout=file, restore_signals=False,
               preexec_fn=lambda: resource.setrlimit(resource.RLIMIT_FSIZE, (LIMIT, LIMIT)))
    file.seek(0)
    told('records: an output that fails after some frames', (file.read(), said),
         ((FRAME * LINES)[:LIMIT], (None, b'standard output: File too large\n', 0)))

# an output that would have to wait: every answer comes, in order, every frame, and every line of the list
told('a slow reader of an output that does not wait', slowly(BAD * LINES, board), refused(1, LINES) + totals(0, LINES))
told('list: a slow reader of an output that does not wait', slowly(b'', parcels), LIST)
told('records: a slow reader of an output that does not wait', slowly(RECORD * LINES, records), FRAME * LINES)
told('list: an input that is closed, which it does not read', run(b'', parcels, stdout=subprocess.PIPE, preexec_fn=lambda: os.close(0)),
     (LIST, b'', 0))

# an input that does not wait, in pieces: a line cut anywhere is answered once it is whole
for name, program, pieces, wanted in (
        ('', board, (NOTHING[:10], NOTHING[10:] + BAD[:3], BAD[3:], NOTHING[:-1]), NOTHING_DONE + refused(2, 2) + NOTHING_DONE + totals(2, 1)),
        ('records: ', records, (RECORD[:3], RECORD[3:] + RECORD[:1], RECORD[1:], RECORD[:-1]), FRAME * 3)):
    reader, writer = os.pipe()
    nonblocking(reader)
    p = subprocess.Popen([program], stdin=reader, stdout=subprocess.PIPE, stderr=subprocess.PIPE)
    os.close(reader)
    for piece in pieces:
        time.sleep(0.2)
        os.write(writer, piece)
    os.close(writer)
    told(name + 'an input that does not wait, in pieces', p.communicate(timeout=SOON), (wanted, b''))

# no input, and one whose totals are all that does not fit
told('an empty input', run(b'', stdout=subprocess.PIPE), (totals(0, 0), b'', 0))
with open('/dev/full', 'wb') as full:
    told('totals that cannot be written', run(b'', stdout=full), (None, b'standard output: No space left on device\n', 0))

# an input that fails: the line that it cut is not answered, and there are no totals, since input has not ended
for name, program, whole, cut, wanted in (('', board, BAD, NOTHING[:10], refused(1, 1)), ('records: ', records, RECORD, RECORD[:-1], FRAME)):
    server = socket.create_server(('127.0.0.1', 0))
    sender = socket.create_connection(server.getsockname())
    taker, _ = server.accept()
    p = subprocess.Popen([program], stdin=taker, stdout=subprocess.PIPE, stderr=subprocess.PIPE)
    taker.close()
    sender.sendall(whole + cut)
    first = p.stdout.read(len(wanted))
    sender.setsockopt(socket.SOL_SOCKET, socket.SO_LINGER, struct.pack('ii', 1, 0))
    sender.close()
    out, err = p.communicate(timeout=SOON)
    server.close()
    told(name + 'an input that fails', (first + out, err), (wanted, b'standard input: Connection reset by peer\n'))

# answers that are there are written before a long run begins
p = subprocess.Popen([board], stdin=subprocess.PIPE, stdout=subprocess.PIPE)
p.stdin.write(NOTHING + BAD + FOREVER)
p.stdin.flush()
want = NOTHING_DONE + refused(2, 2)
alarm = threading.Timer(SOON, p.kill)
alarm.start()
told('answers before a long run', p.stdout.read(len(want)), want)
alarm.cancel()
p.kill()

sys.exit(1 if failed else 0)
