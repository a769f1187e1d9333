// quic-go's frame sorter, for which net-base's StreamRanges says which part of a frame is new.
package quic

/*
#cgo LDFLAGS: -lranges
#include <stdint.h>
struct range { uint64_t begin, end; };
void *ranges_new(void);
struct range ranges_keep(void *ranges, uint64_t begin, uint64_t end);
struct range ranges_gap(const void *ranges, uint64_t pos);
*/
import "C"

import (
	"errors"
	"unsafe"

	"github.com/lucas-clemente/quic-go/internal/protocol"
	list "github.com/lucas-clemente/quic-go/internal/utils/linkedlist"
)

type byteInterval struct {
	Start protocol.ByteCount
	End   protocol.ByteCount
}

type frameSorterEntry struct {
	Data   []byte
	DoneCb func()
}

type frameSorter struct {
	queue   map[protocol.ByteCount]frameSorterEntry
	readPos protocol.ByteCount
	gaps    *list.List[byteInterval]
	ranges  unsafe.Pointer
}

func newFrameSorter() *frameSorter {
	s := frameSorter{queue: make(map[protocol.ByteCount]frameSorterEntry), ranges: C.ranges_new()}
	s.showGaps()
	return &s
}

// Push stores each part of a frame that is new. Of a frame that isn't all new these are copies.
func (s *frameSorter) Push(data []byte, offset protocol.ByteCount, doneCb func()) error {
	end := offset + protocol.ByteCount(len(data))
	for {
		part := C.ranges_keep(s.ranges, C.uint64_t(offset), C.uint64_t(end))
		if part.begin == part.end {
			break
		}
		from, to := protocol.ByteCount(part.begin), protocol.ByteCount(part.end)
		if from == offset && to == end {
			s.queue[from] = frameSorterEntry{Data: data, DoneCb: doneCb}
			doneCb = nil
		} else {
			s.queue[from] = frameSorterEntry{Data: append([]byte{}, data[from-offset:to-offset]...)}
		}
	}
	if doneCb != nil {
		doneCb()
	}
	s.showGaps()
	if s.gaps.Len() > protocol.MaxStreamFrameSorterGaps {
		return errors.New("too many gaps in received data")
	}
	return nil
}

// showGaps lists the gaps, at which the tests look.
func (s *frameSorter) showGaps() {
	s.gaps = list.New[byteInterval]()
	var pos C.uint64_t
	for pos < C.uint64_t(protocol.MaxByteCount) {
		gap := C.ranges_gap(s.ranges, pos)
		pos = gap.end
		if pos > C.uint64_t(protocol.MaxByteCount) {
			pos = C.uint64_t(protocol.MaxByteCount)
		}
		s.gaps.PushBack(byteInterval{Start: protocol.ByteCount(gap.begin), End: protocol.ByteCount(pos)})
	}
}

func (s *frameSorter) Pop() (protocol.ByteCount, []byte, func()) {
	offset := s.readPos
	entry := s.queue[offset]
	delete(s.queue, offset)
	s.readPos += protocol.ByteCount(len(entry.Data))
	return offset, entry.Data, entry.DoneCb
}

// HasMoreData says whether anything is stored.
func (s *frameSorter) HasMoreData() bool {
	return len(s.queue) > 0
}
