// Shows a certificate of a log in TLS 1.3, as it is: no signature stands in it or beside it but that of the handshake.
//
//	serve CERT KEY ADDRESS         serves a certificate in DER, with its key in PEM (PKCS#8), as on localhost:8443
//	ask ADDRESS NAME STORE NOW     asks such a server for NAME, and believes it by `mtc verify CERT STORE NOW`
//
// MTC names the program, and else it is `mtc`. NOW is in seconds since 1970: give the time that it is. The example is tested, and
// not proved. What a client owes beside the judgement stands in docs/LIBRARY.md.
package main

import (
	"bytes"
	"crypto/tls"
	"crypto/x509"
	"encoding/pem"
	"errors"
	"fmt"
	"io"
	"net"
	"os"
	"os/exec"
)

func need(err error) {
	if err != nil {
		fmt.Fprintln(os.Stderr, err)
		os.Exit(1)
	}
}

func keyIn(name string) any {
	text, err := os.ReadFile(name)
	need(err)
	block, _ := pem.Decode(text)
	if block == nil {
		need(errors.New(name + ": no PEM"))
	}
	key, err := x509.ParsePKCS8PrivateKey(block.Bytes)
	need(err)
	return key
}

func serve(cert, key, address string) {
	der, err := os.ReadFile(cert)
	need(err)
	config := &tls.Config{
		MinVersion:   tls.VersionTLS13,
		Certificates: []tls.Certificate{{Certificate: [][]byte{der}, PrivateKey: keyIn(key)}},
	}
	listener, err := tls.Listen("tcp", address, config)
	need(err)
	fmt.Println("serving", listener.Addr())
	for {
		client, err := listener.Accept()
		need(err)
		go func(client net.Conn) {
			defer client.Close()
			fmt.Fprintln(client, "hello")
		}(client)
	}
}

// Judges the certificate of the peer, then compares the name: a client that forgets the name takes each certificate of the log.
func believe(state tls.ConnectionState, name, store, now string) error {
	cert := state.PeerCertificates[0]
	program := os.Getenv("MTC")
	if program == "" {
		program = "mtc"
	}
	verify := exec.Command(program, "verify", "/dev/stdin", store, now)
	verify.Stdin = bytes.NewReader(cert.Raw)
	verify.Stderr = os.Stderr
	printed, err := verify.Output()
	os.Stdout.Write(printed)
	if err != nil {
		return fmt.Errorf("mtc verify: %w", err)
	}
	return cert.VerifyHostname(name)
}

func ask(address, name, store, now string) {
	config := &tls.Config{
		MinVersion: tls.VersionTLS13,
		ServerName: name,
		// The usual check of chains is off, and this one stands in its place. It is called where a session is resumed too.
		InsecureSkipVerify: true,
		VerifyConnection: func(state tls.ConnectionState) error {
			return believe(state, name, store, now)
		},
	}
	server, err := tls.Dial("tcp", address, config)
	need(err)
	defer server.Close()
	answer, err := io.ReadAll(server)
	need(err)
	fmt.Printf("%d bytes of certificate; the server says: %s", len(server.ConnectionState().PeerCertificates[0].Raw), answer)
}

func main() {
	switch words := os.Args[1:]; {
	case len(words) == 4 && words[0] == "serve":
		serve(words[1], words[2], words[3])
	case len(words) == 5 && words[0] == "ask":
		ask(words[1], words[2], words[3], words[4])
	default:
		need(errors.New("serve CERT KEY ADDRESS, or ask ADDRESS NAME STORE NOW"))
	}
}
