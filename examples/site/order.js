$(function () {
  $('.form').submit(function () {
    $(this).append('<p class="thanks"><b>Thank you</b></p>');
    $(this).addClass('sent');
    return false;
  });
});
