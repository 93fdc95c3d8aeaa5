#!/usr/bin/env python3
"""Cases of limits, each as many lines as there may be, and one more. Writes them as the files of cases are written."""


def case(expected, lines):
    print(f'> {expected}')
    for line in lines:
        print(line)


def both(first, line, most, last=('frontend f', 'bind :80')):
    """`most` lines of a kind are right, and one more is a Limit on its own line."""
    lines = [*first, *(line(n) for n in range(most))]
    case('ok', [*lines, *last])
    case(f'line {len(lines) + 1}: Limit', [*lines, line(most), *last])


def main():
    own = ['frontend f', 'bind :80']
    print('#! Lines that may be given so often.')
    case('ok', [line for n in range(64) for line in (f'frontend f{n}', f'bind :{n + 1}')])
    case('line 129: Limit', [line for n in range(65) for line in (f'frontend f{n}', f'bind :{n + 1}')])
    both([], lambda n: f'backend b{n}', 64)
    both(['frontend g'], lambda n: f'bind 10.0.0.1:{n + 1}', 64, [])
    both(own, lambda n: f'tcp-request {("connection", "session")[n % 2]} accept if {{ fe_conn {n} }}', 256, [])
    both([*own, 'backend b', 'frontend g', 'bind :81'], lambda n: ('use_backend b', 'tcp-request session accept')[n % 2], 256, [])
    both(own, lambda n: f'tcp-request connection {("expect-proxy layer4", "accept")[n % 2]} if {{ fe_conn {n} }}', 256, [])
    both(own, lambda n: f'acl a{n % 200} fe_conn {n}', 256, [])
    named = [*own, *(f'acl a{n} fe_conn {n}' for n in range(256))]
    both(named, lambda n: f'tcp-request connection accept if a{n % 256}', 256, [])
    both([*named, *(f'tcp-request connection accept if !a{n}' for n in range(256)), 'frontend g', 'bind :81'], lambda n: f'acl a{n} fe_conn {n}', 256, [])
    both([*own, 'backend b'], lambda n: f'server s{n} 10.0.0.1:80', 64, [])
    both([*own, 'backend b', 'server s 10.0.0.1:80', 'backend c'], lambda n: f'server s{n} 10.0.0.1:80', 64, [])
    case('ok', [*own, *('maxconn 5' for _ in range(1000))])
    case('line 65: Duplicate', [*(f'backend b{n}' for n in range(64)), 'backend b0'])
    print('#! Texts, lines and words.')
    case('ok', [*own, 'mode tcp #'.ljust(2048, 'x')])
    case('ok', [*own, 'mode tcp #'.ljust(2048, 'x') + '\\r'])
    case('line 3: Text TooLong', [*own, 'mode tcp #'.ljust(2049, 'x')])
    case('line 3: Text TooLong', [*own, '"' * 2049, '"'])
    case('line 3: ExtraWord', [*own, 'mode tcp' + ' x' * 62])
    case('line 3: Text TooManyWords', [*own, 'mode tcp' + ' x' * 63])
    case('line 3: Text TooManyWords', [*own, 'mode "tcp"' + ' x' * 63])
    case('ok', [*own, 'option tcplog' + ' x' * 62 + ' # x x x'])
    case('ok', [*own, *('' for _ in range(65533))])
    case('line 65536: Text TooManyLines', [*own, *('' for _ in range(65533)), '"'])
    case('line 65536: Text TooManyWords', [*own, *('' for _ in range(65533)), 'x ' * 65])
    case('ok', [*own, *('#'.ljust(1023, 'x') for _ in range(1023)), '#'.ljust(1003, 'x')])
    case('line 0: Text TooLong', ['"', *own, *('#'.ljust(1023, 'x') for _ in range(1023)), '#'.ljust(1010, 'x')])


if __name__ == '__main__':
    main()
