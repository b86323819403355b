// A test of a small sender.
#include "audit.h"

namespace {

constexpr uint64_t kSize = 1200;
constexpr uint64_t kWindow = 12000;  // bytes that the sender keeps in flight

class Sender {
public:
    void send_all() {
        while ((number_ + 1 - first_in_flight_) * kSize <= kWindow) {
            on_packet_sent();
            number_++;
        }
    }
    void receive(uint64_t time) {
        time_ = time;
        on_ack_received(first_in_flight_, number_ - 1);
        first_in_flight_ = number_;
    }

private:
    void on_packet_sent() {
        audit_.line(R"({"event":"sent","time":)" + std::to_string(time_) + R"(,"space":"app","number":)" +
                    std::to_string(number_) + R"(,"size":)" + std::to_string(kSize) +
                    R"(,"eliciting":true,"in_flight":true})");
    }
    void on_ack_received(uint64_t first, uint64_t last) {
        audit_.line(R"({"event":"ack","time":)" + std::to_string(time_) + R"(,"space":"app","ranges":[[)" +
                    std::to_string(first) + ',' + std::to_string(last) + "]]}");
    }

    Audit audit_{R"({"event":"header","version":1,"role":"server","max_datagram_size":1200})"};
    uint64_t time_ = 0;
    uint64_t number_ = 0;
    uint64_t first_in_flight_ = 0;
};

TEST(Sender, Transfer) {
    Sender sender;
    sender.send_all();
    sender.receive(100000);
    sender.send_all();
}

}  // namespace
